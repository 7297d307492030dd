"""terminal.py STREAMS COMMAND..: runs a command whose standard input, output or error is a terminal of its own, by the words `in`, `out` and
`err`, joined by commas. What is given to standard input is typed there, and ended by control D at the start of a line. What comes to a
terminal is printed where the stream leads, without the carriage returns that the terminal puts in. The status is the command's."""
import os
import pty
import sys
import threading

NUMBERS = {'in': 0, 'out': 1, 'err': 2}


def forward(terminal, to):
    """Prints what comes to a terminal, until nothing has it open."""
    while True:
        try:
            octets = os.read(terminal, 65536)
        except OSError:
            return
        if not octets:
            return
        os.write(to, octets.replace(b'\r\n', b'\n'))


def main(streams, *command):
    given = os.read(0, 4096) if 'in' in streams.split(',') else b''
    terminals = {NUMBERS[stream]: pty.openpty() for stream in streams.split(',')}
    child = os.fork()
    if child == 0:
        for number, (terminal, end) in terminals.items():
            os.dup2(end, number)
        for terminal, end in terminals.values():
            os.close(terminal)
            os.close(end)
        os.execvp(command[0], command)
    readers = []
    for number, (terminal, end) in terminals.items():
        os.close(end)
        if number == 0:
            os.write(terminal, given + b'\4')
        else:
            readers.append(threading.Thread(target=forward, args=(terminal, number)))
            readers[-1].start()
    status = os.waitpid(child, 0)[1]
    for reader in readers:
        reader.join()
    sys.exit(os.waitstatus_to_exitcode(status))


main(*sys.argv[1:])
