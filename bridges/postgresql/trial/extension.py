"""Builds gprom_capture for the server of the tests, where that can be."""
import os
import shutil
import subprocess

SOURCES = os.path.join(os.path.dirname(os.path.dirname(os.path.abspath(__file__))), 'capture')


def what_is_missing(programs):
    """What the extension cannot be built without, or None."""
    if not os.access(f'{programs}/pg_config', os.X_OK):
        return f'there is no {programs}/pg_config'
    makefiles = subprocess.run([f'{programs}/pg_config', '--pgxs'], capture_output=True, text=True, check=True).stdout.strip()
    if not os.path.exists(makefiles):
        return "the server's header files are not installed"
    return next((f'there is no {program}' for program in ('make', 'gcc') if not shutil.which(program)), None)


def build(programs, folder):
    """(the library without its ending, '') or (None, why there is none). A compiler that warns is a fault."""
    if missing := what_is_missing(programs):
        return None, missing
    shutil.copytree(SOURCES, folder)
    done = subprocess.run(['make', '-s', '-C', folder, f'PG_CONFIG={programs}/pg_config', 'COPT=-Werror'],
                          stdout=subprocess.PIPE, stderr=subprocess.STDOUT, text=True, check=False)
    if done.returncode:
        raise RuntimeError(f'gprom_capture is not built: {done.stdout.strip()}')
    return f'{folder}/gprom_capture', ''
