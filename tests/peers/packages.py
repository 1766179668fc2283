"""Installs a package that a comparison with an outside program needs: what the scripts of this folder share."""
import os
import shutil
import subprocess

QUIET = {'stdin': subprocess.DEVNULL, 'stdout': subprocess.DEVNULL, 'stderr': subprocess.DEVNULL}


def try_to_install(*packages):
    """Tries to get each package, without a word: whether it helped is seen afterwards. What is there is left alone."""
    if not shutil.which('apt-get'):
        return
    # A machine without a network must not keep us waiting; another apt-get may be at work for a while.
    options = ('Acquire::Retries=0', 'Acquire::http::Timeout=10', 'Acquire::https::Timeout=10', 'DPkg::Lock::Timeout=60')
    apt = ['apt-get', *(word for option in options for word in ('-o', option))]
    environment = dict(os.environ, DEBIAN_FRONTEND='noninteractive')
    subprocess.run([*apt, 'update'], env=environment, **QUIET)
    # One after the other, so that one that is not to be had does not keep the others out.
    for package in packages:
        subprocess.run([*apt, 'install', '-y', '--no-upgrade', '--no-install-recommends', package], env=environment, **QUIET)
