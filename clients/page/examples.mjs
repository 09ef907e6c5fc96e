// The examples to choose from: those of examples/.
const BUILD_SERVICE = `# A build service's tree: its clients read /src, write in /build, and reach nothing else.
version = 2
abi = 3

[[node]]
path = "/src"
kind = "dir"

[[node]]
path = "/src/main.c"
kind = "reg"
data = "6d61696e28297b7d0a" # main(){}

[[node]]
path = "/build"
kind = "dir"

[[node]]
path = "/keys"
kind = "dir"

[[node]]
path = "/keys/deploy"
kind = "reg"
data = "736563726574" # secret

[[profile.build.layer]]
handled = "execute,write_file,read_file,read_dir,remove_dir,remove_file,make_char,make_dir,make_reg,make_sock,make_fifo,make_block,make_sym,truncate"

[[profile.build.layer.rule]]
path = "/src"
rights = "read_file,read_dir"

[[profile.build.layer.rule]]
path = "/build"
rights = "execute,write_file,read_file,read_dir,remove_dir,remove_file,make_dir,make_reg,truncate"
`;

export const EXAMPLES = [
  {
    name: 'a build service',
    policy: BUILD_SERVICE,
    profile: 'build',
    script: `list /src
open r /src/main.c
read 0 0 64
open w /src/main.c
make reg /src/main.o
open wc /build/main.o
write 1 0 7f454c46
rename /build/main.o /build/main
exec /build/main
exec /src/main.c
unlink /src/main.c
rename /build/main /src/main
list /
open r /keys/deploy
link /keys/deploy /build/deploy
stat /keys/deploy
spawn
@2 open r /keys/deploy
@2 truncate /build/main 0
ruleset read_file
confine 1
open r /build/main
`,
  },
  {
    name: 'a build step',
    script: `make dir /src
make reg /src/main.c
open w /src/main.c
write 0 0 696e7420783b
close 0
make dir /out
spawn
@2 ruleset write_file,remove_dir,remove_file,make_char,make_dir,make_reg,make_sock,make_fifo,make_block,make_sym,truncate
@2 allow 0 /out write_file,remove_file,make_dir,make_reg,truncate
@2 confine 0
@2 open r /src/main.c
@2 read 0 0 4096
@2 open wc /out/main.tmp
@2 write 1 0 7f454c46
@2 rename /out/main.tmp /out/main.o
@2 open w /src/main.c
@2 rename /src/main.c /out/main.c
@2 link /src/main.c /out/main.c
list /out
open w /src/main.c
`,
  },
  {
    name: 'two layers',
    script: `make reg /log
ruleset write_file,read_file
allow 0 /log write_file,read_file
confine 0
open rw /log
ruleset write_file
confine 1
open r /log
open w /log
allow 1 /log write_file
open w /log
`,
  },
  {
    name: 'checks of the build service',
    kind: 'checks',
    policy: BUILD_SERVICE,
    profile: 'build',
    script: `# What a step of the build service may and may not do: the profile build of build-service.toml.

# It reads the sources.
list /src = names main.c
open r /src/main.c = fd 0
read 0 0 64 = data 6d61696e28297b7d0a
close 0

# It changes nothing there, and runs nothing.
open w /src/main.c = denied EACCES layer 1 write_file at
truncate /src/main.c 0 = denied EACCES layer 1 truncate at
unlink /src/main.c = denied EACCES layer 1 remove_file at
make reg /src/main.o = denied EACCES ..
exec /src/main.c = denied EACCES layer 1 execute ..

# It builds beneath /build.
open wc /build/main.o = fd ..
write 0 0 7f454c46 = wrote 4
rename /build/main.o /build/main
exec /build/main
make fifo /build/pipe = denied EACCES layer 1 make_fifo at

# Nothing goes out or comes in under another name.
rename /build/main /src/main = denied EACCES layer 1 make_reg new
link /keys/deploy /build/deploy = denied EXDEV layer 1 refer old

# The key stays closed, and only its name and its size are told.
open r /keys/deploy = denied EACCES layer 1 read_file at
stat /keys/deploy = stat 6 reg 6 1

# Whom it spawns is under the same layer.
spawn = client 2
@2 open r /keys/deploy = denied ..
`,
  },
];
