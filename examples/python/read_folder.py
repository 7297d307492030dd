"""Prints the message in each file of a folder, or why it is refused: python3 read_folder.py FOLDER [--dask] [--workers N]

The files are read by as many processes as there are processors, or by those of Dask. Standard error says how far that is.
"""
import argparse
import concurrent.futures
import pathlib
import sys

import simbegyor_ndef as ndef

AT_ONCE = 100


def octets_of(path):
    """The octets of a file; or what went wrong."""
    try:
        return pathlib.Path(path).read_bytes()
    except OSError as error:
        return error


def line_of(path, answer):
    """A line for a file. Characters that aren't printable ASCII are escapes."""
    text = '; '.join(map(str, answer)) if isinstance(answer, list) else str(answer)
    return ('%s: %s' % (pathlib.Path(path).name, text)).encode('unicode_escape').decode('ascii')


def lines_of(paths):
    """A line for each file, and how many of them hold a message. A process runs this for some of the files."""
    given = [octets_of(path) for path in paths]
    answers = ndef.decode_many(octets for octets in given if not isinstance(octets, OSError))
    results = [octets if isinstance(octets, OSError) else next(answers) for octets in given]
    return [line_of(path, answer) for path, answer in zip(paths, results)], sum(isinstance(answer, list) for answer in results)


def of_pool(parts, workers):
    """What `lines_of` answers for each part, in their order, of a pool of processes."""
    with concurrent.futures.ProcessPoolExecutor(workers) as pool:
        yield from pool.map(lines_of, parts)


def of_dask(parts, workers):
    """The same of Dask's processes, here on this machine; the address of a cluster in their place takes others."""
    import distributed
    with distributed.LocalCluster(n_workers=workers, threads_per_worker=1, dashboard_address=None) as cluster, \
            distributed.Client(cluster) as client:
        for future in client.map(lines_of, parts):
            yield future.result()


def main(words):
    """Prints the lines; 1 where a file holds no message, 2 where Dask is asked for and isn't there."""
    parser = argparse.ArgumentParser(description='Prints the message in each file of a folder, or why it is refused.')
    parser.add_argument('folder', type=pathlib.Path)
    parser.add_argument('--dask', action='store_true', help="by Dask's processes")
    parser.add_argument('--workers', type=int, default=None, help='how many processes')
    chosen = parser.parse_args(words)
    paths = sorted(str(path) for path in chosen.folder.iterdir() if path.is_file())
    parts = [paths[start:start + AT_ONCE] for start in range(0, len(paths), AT_ONCE)]
    done = good = 0
    try:
        for lines, count in (of_dask if chosen.dask else of_pool)(parts, chosen.workers):
            print(*lines, sep='\n')
            done, good = done + len(lines), good + count
            print('%d of %d files' % (done, len(paths)), file=sys.stderr)
    except ImportError as missing:
        print('no Dask (%s): install it, as by apt-get install python3-distributed' % missing, file=sys.stderr)
        return 2
    print('%d of %d files hold a message' % (good, len(paths)), file=sys.stderr)
    return 0 if good == len(paths) else 1


if __name__ == '__main__':
    sys.exit(main(sys.argv[1:]))
