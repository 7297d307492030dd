"""The library for C by ctypes, its structs and calls as interface.json describes them: nothing here is typed twice."""
import ctypes as c
import json

BASIC = {'uint8_t': c.c_uint8, 'uint32_t': c.c_uint32, 'uint64_t': c.c_uint64, 'ndef_size': c.c_size_t}


class Library:
    def __init__(self, path, interface):
        described = json.load(open(interface))
        self.dll, types = c.CDLL(path), dict(BASIC)
        for struct in described['structs']:
            fields = [(f['name'], types[f['type']] * f['count'] if f.get('count') else types[f['type']]) for f in struct['fields']]
            types[struct['name']] = type(struct['name'], (c.Structure,), {'_fields_': fields})
        self.types = types
        self.names = {e['name']: {k['number']: k.get('printed') for k in e['constants']} for e in described['enums'] if e['name']}
        for call in described['calls']:
            function = getattr(self.dll, call['name'])
            function.restype = c.c_uint32 if call['result'] == 'uint32_t' else None
            function.argtypes = [c.c_void_p if '*' in p['type'] else types[p['type']] for p in call['parameters']]
            setattr(self, call['name'][5:], function)

    def new(self, name, **members):
        return self.types['ndef_' + name](**members)

    def filled(self, call, *before, capacity=1 << 16, after=()):
        """Status and octets of a call that fills a buffer."""
        buffer, count = (c.c_uint8 * capacity)(), c.c_size_t(0)
        status = call(*before, buffer, capacity, c.byref(count), *after)
        if status == 2:
            return self.filled(call, *before, capacity=count.value, after=after)
        return status, bytes(buffer[:count.value])

    def listed(self, call, kind, *before, after=(), capacity=4096):
        array, count = (self.types['ndef_' + kind] * capacity)(), c.c_size_t(0)
        status = call(*before, array, capacity, c.byref(count), *after)
        if status == 2:
            return self.listed(call, kind, *before, after=after, capacity=count.value)
        return status, list(array[:count.value])


ref = c.byref
