#!/usr/bin/env python3
"""Tries the launchers: what they say of each status, links, signals, closed pipes, make install. It proves nothing and is no part of
the gate. It ends with a count, and with 1 if a check failed.

    python3 bench/launch.py
"""

import os
import re
import shutil
import signal
import subprocess
import sys
import tempfile
import time

TOP = os.path.dirname(os.path.dirname(os.path.abspath(__file__)))
PINK, DUMP = TOP + '/pink', TOP + '/pinkdump'
checks = 0
faults = []


def check(what, holds):
    global checks
    checks += 1
    if not holds:
        faults.append(what)
        print('launch.py: failed: ' + what, file=sys.stderr)


def run(*words, stdin=subprocess.DEVNULL, **how):
    pipes = {'stdin': stdin, 'stdout': subprocess.PIPE, 'stderr': subprocess.PIPE, 'text': True}
    with subprocess.Popen(words, start_new_session=True, **pipes, **how) as process:
        try:
            printed, told = process.communicate(timeout=300)
        except subprocess.TimeoutExpired:
            os.killpg(process.pid, signal.SIGKILL)  # a build that was begun goes with its launcher
            raise
    return process.returncode, printed, told


def says(words, status, text, **how):
    """One line, with the status and this text."""
    found, _, told = run(PINK, *words, **how)
    check(f'{" ".join(words)}: status {status}, {text!r}, and not {told!r}', found == status and told.count('\n') == 1 and text in told)


def holders(image):
    inode = f':{os.stat(image).st_ino} '
    with open('/proc/locks') as locks:
        return [int(line.split()[4]) for line in locks if inode in line]


def serving(image, **how):
    """The launcher, once its program has the image open, and the program."""
    launcher = subprocess.Popen([PINK, image, 'serve', '36'], stdin=subprocess.PIPE, stdout=subprocess.PIPE, stderr=subprocess.PIPE, **how)
    while not holders(image):
        time.sleep(0.01)
    return launcher, holders(image)[0]


def free_soon(image):
    """A killed process goes when the system comes to it."""
    last = time.monotonic() + 10
    while holders(image) and time.monotonic() < last:
        time.sleep(0.005)
    return not holders(image)


def causes(folder, image):
    junk, cut = folder + '/junk', folder + '/cut'
    with open(junk, 'w') as it:
        it.write('hello')
    with open(image, 'rb') as whole, open(cut, 'wb') as it:
        it.write(whole.read()[:300000])
    damaged = folder + '/damaged'
    with open(image, 'rb') as whole, open(damaged, 'wb') as it:
        text = bytearray(whole.read())
        text[40] = 3
        it.write(text)
    older = folder + '/older'
    with open(image, 'rb') as whole, open(older, 'wb') as it:
        text = bytearray(whole.read())
        for root in range(32 + 16 * 64, 32 + 16 * 64 + 32 * 512, 512):
            if text[root:root + 8] == b'PINKROOT':
                text[root + 8] = 1
        it.write(text)
    shape = ['512', '16', '64']
    says([folder + '/no/d.img', 'make', *shape], 6, f'there is no folder {folder}/no')
    says([folder, 'make', *shape], 6, 'is a folder')
    says([folder, 'list'], 6, 'is a folder')
    says([folder + '/none', 'list'], 8, 'there is no file')
    says([junk, 'list'], 8, 'junk (5 bytes) is no image of a drive')
    says([junk, 'make', *shape], 8, 'is no image of a drive; remove it, or name another file')
    says([cut, 'list'], 8, 'has 300000 bytes, and by its head it should have 525344')
    says([damaged, 'list'], 8, f'{damaged} is damaged: the state of page 8 is 3; see pinkctl check {damaged}')
    says([older, 'list'], 8, 'has version 1 of the format, and this program opens versions 2 and 3')
    limited = folder + '/limited'
    check('a drive with limits is made', run(PINK, limited, 'make', *shape, '100', '392')[0] == 0)
    with open(limited, 'r+b') as it:
        it.seek(40)
        it.write(b'\3')
    says([limited, 'list'], 8, f'{limited} is damaged: the state of page 8 is 3; see pinkctl check {limited}')
    unmade(folder, image)
    says([image, 'make', *shape], 9, 'there is an image already: remove')
    launcher, program = serving(image)
    says([image, 'list'], 6, f'is in use by process {program} (')
    launcher.stdin.close()
    check('the end of the input ends it with 0', launcher.wait(30) == 0)
    if os.geteuid() == 0 and shutil.which('runuser') and run('runuser', '-u', 'nobody', '--', 'test', '-x', PINK)[0] == 0:
        os.chmod(folder, 0o755)
        told = run('runuser', '-u', 'nobody', '--', PINK, image, 'list')
        check('no permission for the image', told[0] == 6 and 'no permission to read and write' in told[2])
        told = run('runuser', '-u', 'nobody', '--', PINK, folder + '/new', 'make', *shape)
        check('no permission for the folder', told[0] == 6 and 'no permission to make a file' in told[2])
    small = folder + '/small'
    os.mkdir(small)
    if os.geteuid() == 0 and run('mount', '-t', 'tmpfs', '-o', 'size=256k', 'none', small)[0] == 0:
        try:
            run(PINK, small + '/d.img', 'make', '4096', '64', '64')
            script = b''.join(b'store %02x %s\n' % (i, b'61' * 60000) for i in range(16))
            asm = subprocess.run([PINK, image, 'asm'], input=script, stdout=subprocess.PIPE).stdout
            done = subprocess.run([PINK, small + '/d.img', 'serve', '36'], input=asm, capture_output=True)
            check('no space', done.returncode == 6 and b'there is no space left on the disk' in done.stderr)
        finally:
            run('umount', small)


def unmade(folder, image):
    """A making that was broken off, drives with spare blocks, and the same without Python."""
    size, place = os.path.getsize(image), folder + '/unmade'
    with open(image, 'rb') as it:
        head = it.read(32)
    stages = {
        'before it had a length': b'', 'before its head had its text': bytes(8) + head[8:] + bytes(size - 32),
        'before its root was written': head + bytes(size - 32), 'while its root was written': head + b'\2' + bytes(size - 33),
    }  # fmt: skip
    for text, content in stages.items():
        with open(place, 'wb') as it:
            it.write(content)
        says([place, 'list'], 8, f'the making of {place} was broken off {text}; remove it, and make it again')
    spared = folder + '/spared'
    check('a drive with spare blocks is made', run(PINK, spared, 'spared', '3', 'make', '512', '16', '64')[0] == 0)
    given = [
        ([spared, 'list'], f'{spared} has 3 spare blocks; pink {spared} spared 3 WORDS..'),
        ([spared, 'spared', '4', 'list'], f'{spared} has 3 spare blocks, not 4; pink {spared} spared 3 WORDS..'),
        ([image, 'spared', '3', 'list'], f'{image} has no table of spare blocks: it was made without them'),
        ([folder + '/none', 'spared', '3', 'list'], f'there is no file {folder}/none; pink {folder}/none spared 3 make 512 16 64'),
    ]
    bare = folder + '/bare'  # the system's programs, without Python
    os.makedirs(bare, exist_ok=True)
    for name in 'sh readlink dirname sed grep od awk head tail tr cut ls cat df wc setpriv date'.split():
        if shutil.which(name):
            os.symlink(shutil.which(name), f'{bare}/{name}')
    for words, text in given:
        says(words, 8, text)
        says(words, 8, text.partition(', not')[0].partition('; pink ')[0], env={'PATH': bare})
    says([place, 'list'], 8, 'is damaged, or its making was broken off; see pinkctl check', env={'PATH': bare})


def logs(folder, image):
    """A log that does not fit its image, and one that is left without it; each also without Python."""
    log, second, bare = os.path.realpath(image) + '-wal', folder + '/second', {'PATH': folder + '/bare'}
    zeros = bytes(288)  # no record of any image
    with open(log, 'wb') as it:
        it.write(b'\x50' + bytes(15) + b'\1' + (288).to_bytes(4, 'little') + (288 + 2 * (2**30 - 288)).to_bytes(4, 'little') + zeros)
    says([image, 'list'], 6, f'{log} is not the log of this image')
    os.link(image, second)
    says([image, 'list'], 6, f'{image} has 2 names (hard links)')
    says([image, 'list'], 6, 'several names (hard links)', env=bare)
    os.unlink(second)
    os.rename(image, second)
    says([image, 'list'], 8, f'there is no file {image}, but {log} is there')
    says([image, 'list'], 8, f'there is no file {image}, but {log} is there', env=bare)
    os.rename(second, image)
    os.unlink(log)
    os.mkdir(log)
    says([image, 'list'], 6, f'{log}, the log of {image}, cannot be read')
    says([image, 'list'], 6, 'is no file of its own', env=bare)
    os.rmdir(log)
    open(log, 'wb').close()
    check('an empty log says nothing', run(PINK, image, 'list')[0] == 0)
    if os.path.exists(log):
        os.unlink(log)


def gone(image):
    """The process that had the image open has ended before its words were read, and a kit that is not there."""
    shell = f'. "{TOP}/launch/why.sh"; seen() {{ return 1; }}; user_of() {{ echo 999999999; }}; flash_fault "{image}" list'
    check('a process that has gone: no line of the shell', run('sh', '-c', shell) == (0, f'{image} is in use by process 999999999\n', ''))
    with tempfile.TemporaryDirectory() as folder:
        for name in ('demo.sh', 'build.sh'):
            shutil.copy(f'{TOP}/{name}', folder)
            status, _, told = run(f'{folder}/{name}', env={'PATH': '/usr/bin:/bin'})
            check(f'{name} without the kit', status == 1 and 'the kit of Rattle (rt), which is not in the path' in told and 'not found' not in told)


def words(image):
    for given, text in [
        ('make 513 16 64', 'a page has 512, 1024,'), ('make 512 12 64', 'a block has 8, 16,'), ('make 512 32 64', 'fewer than 32 pages'),
        ('make 512 16 9', 'at least 21 blocks'), ('make 512 16 5000', 'at most 4096 blocks'), ('make 16384 256 65', 'at most 256 MiB'),
        ('make 512 8 3000', 'does not fit a page'), ('make 4k 16 64', "'4k' is no number"), ('make 512 16', 'make takes P N M and at most 8 limits, and was given 2 words'),
        ('put 61', 'put takes KEY BYTES, and was given 1 word'), ('spared 4', 'spared 4 takes a word after it: make serve'),
        ('make 512 16 64 0', 'a limit of at least one page'), ('make 512 16 64 100 393', 'together 493 pages; this drive has 492'),
        ('make 512 16 64 1 1 1 1 1 1 1 1 1', 'at most 8 namespaces, not 9'),
        ('get 6', 'even count of hexadecimal digits'), ('get zz', "the key 'zz'"), ('get ' + '61' * 17, 'the key has 17 bytes'),
        ('put hello world', "the key 'hello'"), ('put 61 6', 'the value is not'), ('serve 16385', 'at most 16384 frames'), ('serve 036', "'036' is no number"),
        ('PUT 61 62', "there is no word 'PUT'"), ('version', "there is no word 'version'"), ('list zz', "the key 'zz'"), ('stat x', 'stat takes no more words'),
        ('gen 1 4294967296', "'4294967296' is no number"),
    ]:  # fmt: skip
        says([image, *given.split()], 2, text)
    says(['get', 'd.img', '61'], 2, 'the image comes first')


def pairs(folder, image):
    other, small, junk = folder + '/other', folder + '/small.img', folder + '/junk'
    run(PINK, other, 'make', '512', '16', '64')
    run(PINK, small, 'make', '512', '8', '33')
    pair = ['mirror', image, other]
    check('a pair stores', run(PINK, *pair, 'put', '61', '616263') == (0, 'ok\n', ''))
    check('a pair finds', run(PINK, *pair, 'get', '61') == (0, 'ok 616263\n', ''))
    check('the second drive has it', run(PINK, other, 'get', '61')[1] == 'ok 616263\n')
    check('a pair with each change on the disk', run(PINK, *pair, 'del', '61', env={**os.environ, 'PINK_SYNC': '1'})[:2] == (0, 'ok\n'))
    for given, text in [
        (['mirror', image], 'mirror takes two images and a word'), (pair, 'mirror takes two images and a word'),
        (['mirror', image, 'list'], 'two images come first: pink mirror IMAGE IMAGE list'), (['mirror', image, image, 'list'], 'both images are'),
        (['mirror', 'mirror', image, 'list'], 'cannot be named mirror'), ([*pair, 'stat'], "there is no word 'stat' for a pair"),
        ([*pair, 'list', '61'], 'list of a pair takes no more words'), ([*pair, 'get', 'zz'], "the key 'zz'"), ([*pair, 'put', '61'], 'put takes KEY BYTES'),
    ]:  # fmt: skip
        says(given, 2, text)
    none = folder + '/none'
    says(['mirror', image, none, 'list'], 8, f'pink {none} make 512 16 64 makes one, which the next word of the pair fills')
    says(['mirror', image, junk, 'list'], 8, 'junk (5 bytes) is no image of a drive')
    left = f'the drive that is left is {image}, so name it first: '
    says(['mirror', none, image, 'list'], 8, f'there is no file {none}; {left}pink {none} make 512 16 64, then pink mirror {image} {none} resync')
    says(['mirror', junk, image, 'list'], 8, f'junk (5 bytes) is no image of a drive; {left}move {junk} away, then pink {junk} make')
    says(['mirror', image, small, 'list'], 8, 'the drives have different shapes')
    says(['mirror', image, folder, 'list'], 6, 'is a folder')
    says(['mirror', image, f'{folder}/./{os.path.basename(image)}', 'list'], 6, 'both images are one file')
    launcher, program = serving(other)
    says([*pair, 'list'], 6, f'{other} is in use by process {program} (')
    launcher.stdin.close()
    check('the end of the input ends it with 0', launcher.wait(30) == 0)


def broken(folder):
    """The first drive of a pair is lost, and a new one is made in its place: what is left is emptied only on purpose."""
    first, second = folder + '/one.img', folder + '/two.img'
    make = ['make', '512', '16', '64', '100', '392']
    for it in (first, second):
        run(PINK, it, *make)
    for key in ('61', '62', '63'):
        run(PINK, 'mirror', first, second, 'put', key, '616263')
    os.remove(first)
    says(['mirror', first, second, 'list'], 8, 'make 512 16 64 100 392, then')
    run(PINK, first, *make)
    for given in ('list', 'get 61', 'put 64 00', 'del 61', 'resync'):
        for how in ({}, {'PINK_EXEC': '1'}):
            says(['mirror', first, second, *given.split()], 16, f'{first} has no key and {second} has 3', env={**os.environ, **how})
    check('what is left is whole', run(PINK, second, 'list')[1] == '61\n62\n63\n')
    check('and fills the new one', run(PINK, 'mirror', second, first, 'get', '62') == (0, 'ok 616263\n', ''))
    check('which is a drive of the pair again', run(PINK, first, 'list')[1] == '61\n62\n63\n')
    for key in ('61', '62', '63'):
        run(PINK, first, 'del', key)
    says(['mirror', first, second, 'list'], 16, 'PINK_FROM_EMPTY=1 in the environment lets the word through')
    check('on purpose', run(PINK, 'mirror', first, second, 'resync', env={**os.environ, 'PINK_FROM_EMPTY': '1'}) == (0, 'ok\n', ''))
    check('both are empty', run(PINK, 'mirror', first, second, 'list') == (0, '', ''))
    check('a pair without keys takes some', run(PINK, 'mirror', first, second, 'put', '61', '00') == (0, 'ok\n', ''))


def scripts(folder, image):
    place = folder + '/script'
    for line, text in [
        ('store 61  62', 'divided by one blank'), ('store 61\t62', 'it has a tab'), ('exist 61 ', 'divided by one blank'), ('store 61 62\r', 'carriage return'),
        ('put 61 62', 'there is no command put'), ('store 61 6', 'the bytes are not'), ('store 61 62 never', 'the option is none'), ('tick x', 'tick takes STEPS'),
        ('list - x', 'the size is no number'), ('raw 00 -', 'raw takes ENTRY'), ('exist ' + '61' * 17, 'the key is not 2 to 32'), ('flush 1', 'flush takes no more'),
    ]:  # fmt: skip
        with open(place, 'w', newline='') as it:
            it.write(f'# a script\n\nstore 61 62\n{line}\nexist 61\n')
        with open(place) as it:
            says([image, 'asm'], 12, text, stdin=it)
        with open(place) as it:
            says([image, 'asm'], 12, 'line 4 of the script', stdin=it)
    with open(place) as it:
        says([image, 'serve', '36'], 3, 'pink IMAGE asm turns it into entries', stdin=it)
    check('an empty input is served', run(PINK, image, 'serve', '36')[0] == 0)


def signals(image):
    for number in (signal.SIGTERM, signal.SIGINT, signal.SIGHUP, signal.SIGQUIT):
        launcher, _ = serving(image)
        launcher.send_signal(number)
        status = launcher.wait(30)
        check(f'{number.name} ends both, and the image is free at once', status == -number and not holders(image) and launcher.stderr.read() == b'')
    launcher, _ = serving(image)
    launcher.kill()
    launcher.wait(30)
    check('KILL of the launcher ends the program', not shutil.which('setpriv') or free_soon(image))
    launcher, program = serving(image)
    os.kill(program, signal.SIGKILL)
    status = launcher.wait(30)
    check('KILL of the program is reported', status == 137 and b'ended by signal 9; what was answered is on the flash' in launcher.stderr.read())
    launcher, program = serving(image, env={**os.environ, 'PINK_EXEC': '1'})
    check('with PINK_EXEC the program has the place of the launcher', launcher.pid == program)
    launcher.kill()
    check('and its status is its own', launcher.wait(30) == -9 and launcher.stderr.read() == b'')


def pipes(image):
    value = '61' * 2000
    check('a value is stored', run(PINK, image, 'put', '61', value)[:2] == (0, 'ok\n'))
    script = 'retrieve 61 2000\n' * 500
    done = subprocess.run(['sh', '-c', f'"{PINK}" "{image}" asm | {{ "{PINK}" "{image}" serve 36; echo "$?" >&2; }} | head -c 5 >/dev/null'],
                          input=script, capture_output=True, text=True)
    check('a reader that left: status 5 and no line', done.stderr == '5\n')
    done = subprocess.run([PINK, image, 'list'], stdout=open('/dev/full', 'w'), stderr=subprocess.PIPE, text=True)
    check('a full output is reported', done.returncode == 5 and 'writing the output failed' in done.stderr)
    for closed in ('<&-', '<&- 2>&-'):
        check(f'serve {closed}: status 0', run('sh', '-c', f'"{PINK}" "{image}" serve 36 {closed}')[0] == 0)


def links(folder, image):
    os.mkdir(folder + '/bin')
    os.symlink(PINK, folder + '/pink')
    os.symlink('../pink', folder + '/bin/pink')
    for place in (folder + '/pink', folder + '/bin/pink'):
        check('a link is resolved', run(place, image, 'has', '61')[:2] == (0, 'ok\n'))
    path = {**os.environ, 'PATH': folder + '/bin:' + os.environ['PATH']}
    check('a link on the path', run('pink', image, 'has', '61', env=path, cwd='/')[:2] == (0, 'ok\n'))
    for launcher in (PINK, DUMP):
        status, told, _ = run(launcher, '--version')
        check('--version prints the commit and the kit', status == 0 and 'commit ' in told and 'kit rattle-kit' in told)
        status, told, error = run(launcher, '--help')
        check('--help prints to standard output, and ends with 0', status == 0 and './pink' in told and error == '')
        check('without words the same as an error', run(launcher) == (2, '', told))
    check('--help after the image', run(PINK, image, '--help')[:2] == run(PINK, '--help')[:2])
    check('pinkctl --version', run(TOP + '/pinkctl', '--version')[:2] == (0, run(PINK, '--version')[1].replace('pink ', 'pinkctl ', 1).partition(', program')[0] + '\n'))


def examples(folder):
    """The examples of COMMANDS print what it says, also when they are typed again."""
    with open(TOP + '/docs/COMMANDS.md') as it:
        blocks = re.findall(r'^```sh\n(\$ rm -f .*?)^```$', it.read(), re.S | re.M)
    check('examples in COMMANDS', len(blocks) >= 2)
    os.makedirs(folder + '/typed')
    os.symlink(PINK, folder + '/typed/pink')
    for turn in ('first', 'second'):
        for block in blocks:
            typed, wanted, is_text = [], [], False
            for line in block.splitlines():
                if line.startswith('$ '):
                    typed.append(line[2:])
                    is_text = '<<END' in line
                elif is_text:
                    typed.append(line)
                    is_text = line != 'END'
                else:
                    wanted.append(line)
            status, printed, told = run('sh', '-c', '\n'.join(typed), cwd=folder + '/typed')
            check(f'the examples of COMMANDS, typed the {turn} time', (status, printed.splitlines(), told) == (0, wanted, ''))


def cuts(folder):
    """The pictures of the cuts, from what the program pinkcut prints, and from lines that break the rule."""
    with open(TOP + '/crates/pinkcut/stdout') as it:
        lines = it.read()
    page = folder + '/cut.html'

    def shown(text):
        done = subprocess.run([TOP + '/docs/cuts.py', '-o', page], input=text, capture_output=True, text=True)
        return done.returncode, done.stdout.splitlines()[-1] if done.stdout else done.stderr

    status, last = shown(lines)
    found = sum(line.startswith('cut ') for line in lines.splitlines())
    check('every cut is shown', status == 0 and last.startswith(f'{found} cuts: ') and 'none lost' in last)
    with open(page) as it:
        check('a picture for each cut', it.read().count('<tr>') == found)
    posted = lines.index(' post ')
    for what, text in [
        ('a value that was answered and is lost', lines[:posted] + lines[posted:].replace('answer=ok 58595a', 'answer=ok 414243')),
        ('a value that was never stored', lines.replace('answer=ok 58595a', 'answer=ok 58595b', 1)),
        ('a flash that does not open', lines.replace('status=0', 'status=8', 1)),
    ]:  # fmt: skip
        status, last = shown(text)
        check(what, status == 1 and 'OPENED WITH WHAT THEY MAY NOT' in last)
    check('no lines', shown('')[0] == 1)


def installed(folder, image):
    root = folder + '/root'
    if not all(os.path.exists(f'{TOP}/crates/{name}/out/{name}') for name in ('pink', 'pinkdump')):
        print('launch.py: make install is not tried: it would build a program')
        return
    status, _, told = run('make', '-C', TOP, 'install', f'DESTDIR={root}', 'PREFIX=/usr')
    check('make install: ' + told, status == 0)
    bin = root + '/usr/bin/'
    for name in ('pink', 'pinkdump'):
        check('installed: the time of the build', run(bin + name, '--version')[1] == run(f'{TOP}/{name}', '--version')[1])
    check('installed: pink', run(bin + 'pink', image, 'has', '61', cwd='/')[:2] == (0, 'ok\n'))
    check('installed: pinkdump', run(bin + 'pinkdump', image, 'lines', cwd='/')[1].startswith('image page_bytes=512'))
    check('installed: pinkctl', 'serve' in run(bin + 'pinkctl', '--help', cwd='/')[1])
    check('installed: --version', 'commit ' in run(bin + 'pink', '--version')[1])
    check('installed: pages and completion', os.path.isfile(root + '/usr/share/man/man1/pink.1') and os.path.isfile(root + '/usr/share/bash-completion/completions/pink'))
    check('make uninstall', run('make', '-C', TOP, 'uninstall', f'DESTDIR={root}', 'PREFIX=/usr')[0] == 0)
    check('nothing remains', not [names for _, _, names in os.walk(root) if names])
    program = f'PINK={TOP}/crates/pink/out/pink'
    check('make install of one program', run('make', '-C', TOP, 'install', f'DESTDIR={root}', 'PREFIX=/usr', program, 'PINKDUMP=')[0] == 0)
    check('it runs', run(bin + 'pink', image, 'has', '61', cwd='/')[:2] == (0, 'ok\n'))
    status, _, told = run(bin + 'pinkdump', image)
    check('a program that is not there', status == 1 and 'pinkdump: there is no program' in told)
    check('pinkctl without pinkdump', 'pinkdump is not built' in run(bin + 'pinkctl', 'check', image, env={'PATH': '/usr/bin:/bin'})[1])
    check('make install-tools', run('make', '-C', TOP, 'uninstall', 'install-tools', f'DESTDIR={root}', 'PREFIX=/usr')[0] == 0)
    check('no program', run(bin + 'pink', image, 'list')[0] == 1 and not os.path.exists(root + '/usr/lib/cezhandru/crates'))


# nohup, or a shell that runs this in the background, has signals ignored, and a launcher cannot catch what was ignored before it began
for number in (signal.SIGHUP, signal.SIGINT, signal.SIGQUIT):
    signal.signal(number, signal.SIG_DFL)
with tempfile.TemporaryDirectory() as folder:
    image = folder + '/drive.img'
    check('make', run(PINK, image, 'make', '512', '16', '64') == (0, '', ''))
    causes(folder, image)
    logs(folder, image)
    gone(image)
    words(image)
    pairs(folder, image)
    broken(folder)
    scripts(folder, image)
    signals(image)
    pipes(image)
    links(folder, image)
    examples(folder)
    cuts(folder)
    installed(folder, image)
print(f'launch.py: {checks - len(faults)} of {checks} checks passed')
sys.exit(bool(faults))
