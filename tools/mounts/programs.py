"""The steps of real programs that are run in a mount, one after the other; each is a script of bash."""

GIT = "git -c user.name=a -c user.email=a@b -c gc.auto=0"
SAMPLE = r"""
mkdir -p tree/src tree/sub/deep
for f in a b; do echo "int $f(int x) { return x + 1; }" >tree/src/$f.c; done
printf '#include <stdio.h>\nint a(int); int b(int);\nint main(void) { printf("%%d\\n", a(b(40))); return 0; }\n' >tree/src/main.c
printf 'OBJ = src/main.o src/a.o src/b.o\nprog: $(OBJ)\n\tgcc -o $@ $(OBJ)\n%%.o: %%.c\n\tgcc -c -o $@ $<\n' >tree/Makefile
seq 2000 >tree/sub/numbers
head -c 30000 /dev/urandom >tree/sub/deep/random
ln -s ../Makefile tree/sub/link
chmod 600 tree/sub/numbers
touch -d 2020-02-02 tree/sub/numbers
"""
TEMPFILE = """python3 - <<'END'
import mmap, os, shutil, tempfile
with tempfile.TemporaryDirectory(dir=".") as folder:
    path = folder + "/f"
    open(path, "wb").write(b"a" * 8192)
    with open(path, "r+b") as file:
        map = mmap.mmap(file.fileno(), 0)
        map[4096:4100] = b"WXYZ"
        map.close()
    assert open(path, "rb").read()[4096:4100] == b"WXYZ"
    with tempfile.TemporaryFile(dir=folder) as file:
        file.write(b"q" * 100)
        file.flush()
        assert os.fstat(file.fileno()).st_size == 100
        file.seek(0)
        assert file.read() == b"q" * 100
    shutil.copytree("tree", folder + "/copy", symlinks=True)
END"""

# What it is, the programs that it needs, the script.
STEPS = [
    ("cp -a", "cp", "cp -a tree t1 && diff -r --no-dereference tree t1 && [ $(stat -c %a%Y t1/sub/numbers) = 600$(date -d 2020-02-02 +%s) ]"),
    ("tar", "tar", "mkdir t2 && tar -C tree -cf - . | tar -C t2 -xpf - && diff -r --no-dereference tree t2"),
    ("an archive", "tar", "tar -C tree/src -cf x.tar . && [ $(tar tf x.tar | wc -l) = 4 ] && rm x.tar"),
    ("mv between directories", "mv", "mkdir -p p/q && mv t2 p/q/t3 && mv p/q/t3/sub p/sub && [ $(tail -1 p/sub/numbers) = 2000 ]"),
    ("rm -r", "rm", "rm -r p t1 && [ ! -e p ]"),
    ("find, du, grep -r", "find", "[ $(find tree -type f | wc -l) = 6 ] && du -s tree && grep -r printf tree"),
    ("make and gcc", "make gcc", "cd tree && make && [ $(./prog) = 42 ] && make | grep 'up to date'"),
    ("make after a touch", "make gcc", "cd tree && sleep 0.05 && touch src/a.c && [ $(make | grep -c 'gcc -c') = 1 ]"),
    ("a script", "sh", "printf '#!/bin/sh\necho hi\n' >s.sh && chmod +x s.sh && ./s.sh && chmod -x s.sh && ! ./s.sh"),
    ("hard links", "ln", "echo 1 >h1 && ln h1 h2 && [ $(stat -c %h h1) = 2 ] && echo 2 >>h2 && grep 2 h1 && rm h1 h2"),
    ("symbolic links", "ln", "ln -s lo2 lo1; ln -s lo1 lo2; ! cat lo1; ln -s nowhere dl; ! cat dl; [ $(readlink dl) = nowhere ] && rm lo1 lo2 dl"),
    ("odd names", "ls", "mkdir 'a b' && echo x >'a b/ä%20 c' && ls 'a b' | grep -x 'ä%20 c' && rm -r 'a b'"),
    ("sed -i", "sed", "cp tree/Makefile mf && sed -i s/gcc/cc/ mf && grep cc mf && rm mf"),
    ("modules of Python", "python3", "mkdir py && echo 'x = 42' >py/modu.py && cd py && unset PYTHONDONTWRITEBYTECODE && python3 -c 'import modu' && ls __pycache__"),
    ("tempfile, mmap, shutil", "python3", TEMPFILE),
    ("sqlite3 with a journal", "sqlite3", "sqlite3 db 'create table t(a); begin; insert into t values(1); insert into t values(2); commit; begin; insert into t values(3); rollback; select sum(a) from t; pragma integrity_check;' | tr '\n' ' ' | grep '3 ok'"),
    ("sqlite3 with a shared map", "sqlite3", "sqlite3 wal 'pragma journal_mode=wal; create table t(a); insert into t values(1); select * from t;' | grep -q wal && rm -f wal*"),
    ("sqlite3, two writers", "sqlite3", "(for i in 1 2 3; do sqlite3 -cmd '.timeout 8000' db 'insert into t values(10)'; done) & for i in 1 2 3; do sqlite3 -cmd '.timeout 8000' db 'insert into t values(10)'; done; wait; [ $(sqlite3 db 'select count(*) from t where a=10') = 6 ]"),
    ("rsync", "rsync", "rsync -a tree/ rs/ && [ $(rsync -a --delete --itemize-changes tree/ rs/ | wc -l) = 0 ]"),
    ("git init, add, commit, log", "git", f"git init -q g && cd g && cp -r ../tree/src . && git add -A && {GIT} commit -qm one && git log --oneline && [ $(git status --short | wc -l) = 0 ]"),
    ("git branch, merge, fsck", "git", f"cd g && git checkout -qb br && echo '// x' >>src/a.c && {GIT} commit -qam two && git checkout -q - && echo '// y' >>src/b.c && {GIT} commit -qam three && {GIT} merge -q -m m br && git fsck"),
    ("git gc", "git", "cd g && git gc -q && git fsck && ls .git/objects/pack"),
    ("git clone by hard links", "git", "git clone -q g g2 && cd g2 && git log --oneline | grep one && [ $(stat -c %h .git/objects/*/* | sort -n | tail -1) = 2 ]"),
    ("git worktree, stash", "git", f"cd g2 && echo z >>src/a.c && {GIT} stash -q && {GIT} stash pop -q && git worktree add -q ../wt HEAD && ls ../wt"),
    ("flock", "flock", "flock -n lk -c 'echo got' && (flock -n 9 && ! flock -n lk true) 9>lk"),
    ("a fifo", "mkfifo", "mkfifo ff && (echo through >ff &) && cat ff | grep through && rm ff"),
    ("a UNIX socket", "python3", 'python3 -c \'import socket,os; s=socket.socket(socket.AF_UNIX); s.bind("us"); s.listen(); c=socket.socket(socket.AF_UNIX); c.connect("us"); os.unlink("us")\''),
    ("cp of 65,536 bytes", "cp", "head -c 65536 /dev/urandom >/tmp/k64.$$ && cp /tmp/k64.$$ k64 && cmp /tmp/k64.$$ k64; s=$?; rm /tmp/k64.$$; exit $s"),
    ("cp of 65,537 bytes", "cp", "head -c 65537 /dev/urandom >/tmp/k65.$$; s=0; cp /tmp/k65.$$ k65 || s=1; rm /tmp/k65.$$; exit $s"),
    ("gcc -static", "gcc", "gcc -static -o st tree/src/*.c && [ $(./st) = 42 ]"),
    ("a virtual environment", "python3", "python3 -m venv --without-pip ve && ve/bin/python -c 'print(1)'"),
    ("70 open files", "python3", "python3 -c 'f=[open(f\"of{i}\",\"w\") for i in range(70)]'"),
    ("1,100 files in a directory", "python3", "mkdir big && cd big && python3 -c 'for i in range(1100): open(f\"f{i}\",\"w\")'"),
    ("df", "df", "df . && [ $(df --output=itotal . | tail -1) = 4096 ]"),
]

# The steps that meet a limit of the tree: with its bytes, and with the mount's.
LIMITED = {
    "tree": {"cp of 65,537 bytes", "gcc -static", "1,100 files in a directory"},
    "mount": {"1,100 files in a directory"},
}
