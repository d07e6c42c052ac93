"""A server of PostgreSQL in a folder, on a socket there alone."""

import glob
import os
import shutil
import signal
import subprocess
import time

from mrep import Wrong, content


def wait_for(what, is_there):
    for _ in range(600):
        if is_there():
            return
        time.sleep(0.1)
    raise Wrong(f'{what} does not start')


def programs():
    """The folder of the programs of a server; nothing where none is installed."""
    found = [*sorted(glob.glob('/usr/lib/postgresql/*/bin'), reverse=True),
             os.path.dirname(os.path.realpath(shutil.which('initdb') or '/none/initdb'))]
    found = [bin for bin in found if all(os.access(f'{bin}/{name}', os.X_OK) for name in ('initdb', 'postgres', 'psql'))]
    return found[0] if found else None


def missing():
    """Why there can be no server; nothing if there can."""
    if not programs():
        return 'PostgreSQL is not installed'
    if os.geteuid() == 0 and (not shutil.which('runuser')
                              or subprocess.run(['id', 'postgres'], capture_output=True, check=False).returncode):
        return 'a PostgreSQL does not run as root, and there is no user postgres'
    return None


class Server:
    """A server; as root it runs as the user postgres."""

    def __init__(self, folder, *settings):
        self.user = ['runuser', '-u', 'postgres', '--'] if os.geteuid() == 0 else []
        self.bin, self.folder, self.settings = programs(), f'{folder}/postgres', settings
        os.mkdir(self.folder)
        if self.user:
            os.chmod(folder, 0o711)
            shutil.chown(self.folder, 'postgres')
        how = {'cwd': '/', 'stdin': subprocess.DEVNULL, 'stdout': subprocess.DEVNULL, 'stderr': subprocess.PIPE}
        made = subprocess.run([*self.user, f'{self.bin}/initdb', '-D', f'{self.folder}/data', '-A', 'trust', '-U', 'postgres',
                               '-N'], check=False, **how)
        if made.returncode:
            raise Wrong(f'initdb ends with {made.returncode}: {made.stderr.decode()}')
        self.start()

    def start(self):
        words = ['-D', f'{self.folder}/data', '-k', self.folder, '-c', 'listen_addresses=', '-c', 'fsync=off',
                 *(it for setting in self.settings for it in ('-c', setting))]
        self.process = subprocess.Popen([*self.user, f'{self.bin}/postgres', *words], cwd='/', stdin=subprocess.DEVNULL,
                                        stdout=subprocess.DEVNULL, stderr=subprocess.DEVNULL)
        wait_for('PostgreSQL', self.is_there)

    def is_there(self):
        try:
            return self.psql('postgres', 'SELECT 1') == '1\n'
        except Wrong:
            return False

    def stop(self):
        # The server itself, since `runuser` passes nothing on to it.
        if os.path.exists(f'{self.folder}/data/postmaster.pid'):
            os.kill(int(content(f'{self.folder}/data/postmaster.pid').split()[0]), signal.SIGINT)
        self.process.wait(60)

    def make(self, database):
        self.psql('postgres', f'CREATE DATABASE "{database}" ENCODING \'UTF8\' TEMPLATE template0')

    def psql(self, database, statement):
        words = [f'{self.bin}/psql', '-XqAt', '-v', 'ON_ERROR_STOP=1', '-h', self.folder, '-U', 'postgres', '-d', database, '-c',
                 statement]
        done = subprocess.run(words, capture_output=True, check=False,
                              env={**os.environ, 'PGCLIENTENCODING': 'UTF8', 'PGTZ': 'UTC'})
        if done.returncode:
            raise Wrong(f'psql says {done.stderr.decode()}')
        return done.stdout.decode()
