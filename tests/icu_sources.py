#!/usr/bin/env python3
"""Fetches the sources of ICU's data that Debian has, for icu_build.py and bench/icu_texts.py.

    icu_sources.py FOLDER [WHICH ..]

WHICH is a version of ICU: 67, 71, 72, 73, 77 or 78, and 73 where none is said. Each is a part of a
source package of Debian's bookworm, as SOURCES says: the newest of that name whose version begins
as there. Its tarball, of 26 to 800 MB, is fetched by apt's own helper, which compares its sum with
that of the signed list. ICU's `data` and `python`, the data of its tests and its other texts are
taken out of it, and the `data_filter.json` of Firefox, and put below FOLDER/WHICH as `source` and
`data_filter.json`; then the tarball is removed. That of ICU 72 has no texts of locales. apt's lists
stand in FOLDER/lists; root isn't needed, nor a line `deb-src`. A line says for each where it lies,
or what couldn't be had, which is status 1.
"""
import argparse
import pathlib
import re
import shutil
import subprocess
import sys

# by ICU's version: the package, how its version begins, and where ICU lies in its tarball
SOURCES = {
    '67': ('mozjs78', '78.', 'intl/icu/'),
    '71': ('mozjs102', '102.', 'intl/icu/'),
    '72': ('icu', '72.', ''),
    '73': ('firefox-esr', '115.', 'intl/icu/'),
    '77': ('firefox-esr', '140.', 'intl/icu/'),
    '78': ('firefox-esr', '153.', 'intl/icu/'),
}
KEYS = '/usr/share/keyrings/debian-archive-keyring.gpg'
LISTED = f'''deb-src [signed-by={KEYS}] http://deb.debian.org/debian bookworm main
deb-src [signed-by={KEYS}] http://deb.debian.org/debian-security bookworm-security main
'''
HELPER = '/usr/lib/apt/apt-helper'


class Missing(Exception):
    """What couldn't be had."""


def said_by(*words):
    """What a program prints; what it complains of, where it fails."""
    ran = subprocess.run(words, capture_output=True, text=True, check=False)
    if ran.returncode:
        complaints = [it for it in ran.stderr.splitlines() if it.startswith(('E:', 'tar:'))]
        raise Missing(complaints[0] if complaints else f'{words[0]}: status {ran.returncode}')
    return ran.stdout


def settings_below(folder):
    """apt's settings for lists of its own, and the lists, made newer."""
    for below in ('lists/partial', 'cache/archives/partial'):
        (folder / below).mkdir(parents=True, exist_ok=True)
    (folder / 'sources.list').write_text(LISTED)
    places = {'Dir::Etc::SourceList': folder / 'sources.list', 'Dir::Etc::SourceParts': '/dev/null',
              'Dir::State::Lists': folder / 'lists', 'Dir::Cache': folder / 'cache',
              'Debug::NoLocking': 1, 'APT::Update::Error-Mode': 'any'}
    settings = [word for name, value in places.items() for word in ('-o', f'{name}={value}')]
    said_by('apt-get', *settings, 'update')
    return settings


def tarball_of(settings, package, beginning):
    """Where the package's own tarball is, and its sum."""
    records = said_by('apt-cache', *settings, 'showsrc', '--only-source', package)
    versions = [it for it in re.findall(r'^Version: (\S+)', records, re.M)
                if it.startswith(beginning)]
    if not versions:
        raise Missing(f'no {package} of a version {beginning}* is listed')
    files = said_by('apt-get', *settings, '--print-uris', 'source', f'{package}={versions[-1]}')
    found = re.search(r"^'([^']+\.orig\.tar\.\w+)' \S+ \d+ (\S+)$", files, re.M)
    if not found:
        raise Missing(f'{package} {versions[-1]} has no tarball')
    return found.groups()


def take_out(tarball, inside, target):
    """Puts the parts of a tarball that are wanted where they shall stand."""
    unpacked = target / 'unpacked'
    unpacked.mkdir(parents=True)
    wanted = ['source/*.txt', 'source/data/*', 'source/python/*', 'source/test/testdata/*',
              'data_filter.json']
    said_by('tar', '-xf', str(tarball), '-C', str(unpacked), '--wildcards',
            *(f'*/{inside}{it}' for it in (wanted if inside else wanted[:-1])))
    for found in next(unpacked.glob(f'*/{inside}')).iterdir():
        found.rename(target / found.name)
    shutil.rmtree(unpacked)


def fetch(settings, folder, which):
    """Fetches one version's sources into a folder of its name."""
    package, beginning, inside = SOURCES[which]
    target = folder / which
    if (target / 'source/data').is_dir():
        return target
    shutil.rmtree(target, ignore_errors=True)
    address, checksum = tarball_of(settings, package, beginning)
    tarball = folder / address.rpartition('/')[2]
    said_by(HELPER, 'download-file', address, str(tarball), checksum)
    take_out(tarball, inside, target)
    tarball.unlink()
    return target


def main():
    """Fetches each that is asked for, whatever comes of the others."""
    words = argparse.ArgumentParser(usage=__doc__)
    words.add_argument('folder', type=pathlib.Path)
    words.add_argument('which', nargs='*', metavar='WHICH')
    given = words.parse_args()
    folder = given.folder.resolve()
    wanted = given.which or ['73']
    if unknown := [it for it in wanted if it not in SOURCES]:
        sys.exit(f'icu_sources: no source is known of {", ".join(unknown)}')
    try:
        settings = settings_below(folder)
    except Missing as e:
        sys.exit(f'icu_sources: the lists of packages can\'t be had: {e}')
    missing = 0
    for which in wanted:
        try:
            print(f'ICU {which}: {fetch(settings, folder, which)}')
        except Missing as e:
            missing += 1
            print(f'ICU {which}: not had: {e}')
    return missing > 0


if __name__ == '__main__':
    sys.exit(main())
