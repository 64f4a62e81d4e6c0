"""What users do wrong, and what has to be said of it: the tables of tests/gate/mistakes."""

DOORS = 'listen = "127.0.0.1:0"\nweb = "127.0.0.1:0"\n'
WORKER_KEYS = '[[worker]]\nname = "w0"\npassword = "p"\n'
PLAIN = DOORS + WORKER_KEYS
# With a worker of the programs.
LOCAL = PLAIN + 'latent = ["buildworker", "{master}", "w0", "p"]\n'
BUILD = '[[build]]\nworker = "w0"\n'
STEP = '[[build.step]]\nname = "s"\ncommand = ["true"]\n'

FIRST = "examples/first-build.toml"
BIN = "packaging/bin"
LOCK = '[[lock]]\nname = "l"\n'

# Configurations that are refused: the text, the key that is told, and the line behind it.
REFUSED = {
    "no TOML": (PLAIN + "x = = 1\n", "syntax", "TOML parse error at line 6, column 5"),
    "a bracket that isn't closed": (DOORS + "[[worker\n", "syntax", "TOML parse error at line 3, column 9"),
    "no UTF-8": (PLAIN.encode() + b'x = "\xff"\n', "syntax", "the text isn't UTF-8"),
    "no listen": ('web = "127.0.0.1:0"\n' + WORKER_KEYS, "listen", 'configuration: listen: expected an IP address and a port, as "127.0.0.1:9989"'),
    "a host's name": (PLAIN.replace("127.0.0.1:0", "localhost:0"), "listen", 'configuration: listen: expected an IP address and a port, as "127.0.0.1:9989"'),
    "a web without a port": (DOORS.replace('web = "127.0.0.1:0"', 'web = "127.0.0.1"') + WORKER_KEYS, "web", 'configuration: web: expected an IP address and a port, as "127.0.0.1:8010"'),
    "an address of another machine": ('listen = "192.0.2.1:1"\nweb = "127.0.0.1:0"\n' + WORKER_KEYS, "listen", "configuration: listen: 192.0.2.1:1 can't be bound: "),
    "an empty address": ('address = ""\n' + PLAIN, "address", "configuration: address: expected a text that isn't empty, HOST:PORT"),
    "a capacity of 0": ("capacity = 0\n" + PLAIN, "capacity", "configuration: capacity: expected a number from 1 to 65536"),
    "a text of writers": ('writers = "2"\n' + PLAIN, "writers", "configuration: writers: expected a number from 1 to 64"),
    "remarks of XML": ('remarks = "xml"\n' + PLAIN, "remarks", 'configuration: remarks: expected "text" or "json"'),
    "no worker": (DOORS, "worker", "configuration: worker: expected 1 to 64 tables [[worker]]"),
    "a worker without a name": (DOORS + '[[worker]]\npassword = "p"\n', "name", "worker 0: name: expected a text that isn't empty and that no other worker has"),
    "two workers of a name": (PLAIN + WORKER_KEYS, "name", "worker 1: name: expected a text that isn't empty and that no other worker has"),
    "a worker without a password": (DOORS + '[[worker]]\nname = "w0"\n', "password", "worker 0: password: expected a text"),
    "five slots": (PLAIN + "slots = 5\n", "slots", "worker 0: slots: expected a number from 1 to 4"),
    "a program that is no array": (PLAIN + 'latent = "buildworker"\n', "latent", "worker 0: latent: expected an array of texts, the program first"),
    "idle ticks of 0": (PLAIN + "idle_ticks = 0\n", "idle_ticks", "worker 0: idle_ticks: expected a number from 1 to 2147483647"),
    "negative ticks": (PLAIN + "resume_ticks = -1\n", "resume_ticks", "worker 0: resume_ticks: expected a number from 0 to 2147483647"),
    "two locks of a name": (PLAIN + LOCK + LOCK, "name", "lock 1: name: expected a text that no other lock has"),
    "a lock for nobody": (PLAIN + LOCK + "max = 0\n", "max", "lock 0: max: expected a number from 1 to 2147483647"),
    "one table of builds": (PLAIN + '[build]\nworker = "w0"\n', "build", "configuration: build: expected at most 10000 tables [[build]]"),
    "a worker that isn't there": (PLAIN + BUILD + '[[build]]\nworker = "w9"\n', "worker", "build 1: worker: expected the name of a worker"),
    "a lock that isn't there": (PLAIN + LOCK + BUILD + 'locks = [{name = "l", mode = "counting"}, {name = "k", mode = "counting"}]\n', "name", "build 0, locks 1: name: expected the name of a lock, each once in a build"),
    "a mode of no name": (PLAIN + LOCK + BUILD + 'locks = [{name = "l", mode = "shared"}]\n', "mode", 'build 0, locks 0: mode: expected "counting" or "exclusive"'),
    "one table of steps": (PLAIN + BUILD + '[build.step]\nname = "s"\n', "step", "build 0: step: expected tables [[build.step]]"),
    "a step without a name": (PLAIN + BUILD + BUILD + STEP + '[[build.step]]\ncommand = ["true"]\n', "name", "build 1, step 1: name: expected a text"),
    "a command that is a text": (PLAIN + BUILD + STEP.replace('["true"]', '"true"'), "command", "build 0, step 0: command: expected an array of 1 to 10000 texts, of at most 900000 bytes together"),
    "a flag that is a number": (PLAIN + BUILD + STEP + "haltOnFailure = 1\n", "haltOnFailure", "build 0, step 0: haltOnFailure: expected true or false"),
    "too many bytes": (PLAIN + BUILD + STEP + "max_bytes = 4294967296\n", "max_bytes", "build 0, step 0: max_bytes: expected a number from 0 to 4294967295"),
    "a timeout in words": (PLAIN + BUILD + STEP + 'timeout_ticks = "60"\n', "timeout_ticks", "build 0, step 0: timeout_ticks: expected a number from 0 to 2147483647"),
    "a silence below 0": (PLAIN + BUILD + STEP + "silent_ticks = -1\n", "silent_ticks", "build 0, step 0: silent_ticks: expected a number from 0 to 2147483647"),
}

# Keys that nobody reads: the text, and what is told of each.
UNKNOWN = {
    "builds": (PLAIN + '[[builds]]\nworker = "w0"\n', ['configuration: unknown key "builds", near "build"']),
    "a step of the file": (PLAIN + '[[step]]\nname = "s"\n', ['configuration: unknown key "step"']),
    "steps of a build": (PLAIN + BUILD + '[[build.steps]]\nname = "s"\n', ['build 0: unknown key "steps", near "step"']),
    "a flag in small letters": (PLAIN + BUILD + STEP + "haltonfailure = true\n", ['build 0, step 0: unknown key "haltonfailure", near "haltOnFailure"']),
    "a flag with underscores": (PLAIN + BUILD + STEP + "halt_on_failure = true\n", ['build 0, step 0: unknown key "halt_on_failure", near "haltOnFailure"']),
    "a timeout": (PLAIN + BUILD + STEP + STEP + "timeout = 60\n", ['build 0, step 1: unknown key "timeout"']),
    "a silence": (PLAIN + BUILD + STEP + "silent_ticks = 0\nsilenttick = 60\n", ['build 0, step 0: unknown key "silenttick", near "silent_ticks"']),
    "an environment": (PLAIN + BUILD + BUILD + STEP + 'env = {A = "1"}\n', ['build 1, step 0: unknown key "env"']),
    "keys of workers and locks": (PLAIN + "slot = 2\n" + LOCK + "maxs = 2\n", ['worker 0: unknown key "slot", near "slots"', 'lock 0: unknown key "maxs", near "max"']),
    "a lock's key": (PLAIN + LOCK + BUILD + 'locks = [{name = "l", mode = "counting", count = 2}]\n', ['build 0, locks 0: unknown key "count"']),
    "a key that moves cursors": (PLAIN + '[extra]\n' + '"\\u001b[2J" = 1\n', ['configuration: unknown key "extra"']),
    "a cursor": ('"a\\u001b[2J\\n" = 1\n' + PLAIN, ['configuration: unknown key "a\\x1b[2J\\x0a"']),
}

# Lines of standard input, and what is told of each.
LINES = {
    "cancel 99": "build 99 is not there",
    "CANCEL 0": "input not understood",
    "cancel 0 ": "input not understood",
    "cancel": "input not understood",
    "": "input not understood",
    "x" * 5000: "input not understood",
}

# Words of commands: the command, its words, its status, and what it says.
WORDS = {
    "buildmaster alone": (["buildmaster"], 2, "usage: buildmaster"),
    "buildmaster run": (["buildmaster", "run"], 2, "usage: buildmaster"),
    "buildmaster serve": (["buildmaster", "serve"], 2, "usage: buildmaster"),
    "buildworker alone": (["buildworker"], 2, "usage: buildworker"),
    "buildworker without a port": (["buildworker", "localhost", "w0", "p"], 2, "usage: buildworker"),
    "serve of two files": (["./serve", "a", "b"], 2, "usage: ./serve"),
    "serve with an option": (["./serve", "--port=1"], 2, "usage: ./serve"),
    "serve of no file": (["./serve", "no-such.toml"], 2, "bad configuration: file\n"),
    "serve by programs of no folder": (["env", "PROGRAMS=/no-such", "./serve", FIRST], 127, "no folder: /no-such\n"),
    "run by programs of no folder": (["env", "PROGRAMS=/no-such", "./run", FIRST], 127, "no folder: /no-such\n"),
    "run alone": (["./run"], 2, "usage: ./run"),
    "run with an option": (["./run", "a", "--loud"], 2, "usage: ./run"),
    "run that keeps nowhere": (["./run", "a", "--keep"], 2, "usage: ./run"),
    "run of no file": (["./run", "no-such.toml"], 2, "bad configuration: file\nno-such.toml: "),
    "follow alone": (["./follow"], 2, "usage: ./follow"),
    "follow of a name": (["./follow", "127.0.0.1:1", "compile"], 2, "usage: ./follow"),
    "follow of no address": (["./follow", "here", "0"], 2, "no address: here"),
    "follow of nobody": (["./follow", "127.0.0.1:1", "0"], 3, "127.0.0.1:1: "),
    "check of no part": (["./check", "everything"], 2, "usage: ./check"),
    "bolgrudi-worker alone": ([f"{BIN}/bolgrudi-worker"], 2, "usage: bolgrudi-worker"),
    "bolgrudi-worker without its file": ([f"{BIN}/bolgrudi-worker", "h:1", "w0", "no-such"], 1, "no-such can't be read"),
    "buildmaster replay of no capacity": (["buildmaster", "replay", "0"], 2, "usage: buildmaster"),
    "buildmaster of two files": (["buildmaster", "serve", "a", "b"], 2, "usage: buildmaster"),
    "buildmaster of a folder": (["buildmaster", "serve", "docs"], 2, "bad configuration: file\ndocs: Is a directory"),
    "buildworker of port 0": (["buildworker", "localhost:0", "w0", "p"], 2, "usage: buildworker"),
    "buildworker of a port too many": (["buildworker", "localhost:65536", "w0", "p"], 2, "usage: buildworker"),
    "serve of an empty name": (["./serve", ""], 2, "bad configuration: file\n"),
    "serve of a folder": (["./serve", "docs"], 2, "bad configuration: file\ndocs: Is a directory"),
    "run of a folder": (["./run", "docs"], 2, "bad configuration: file\ndocs: Is a directory"),
    "run that keeps in no folder": (["./run", FIRST, "--keep", ""], 2, "--keep wants a folder"),
    "run that keeps in a file": (["./run", FIRST, "--keep", "README.md"], 1, "README.md can't be made: File exists"),
    "run with a cursor": (["./run", FIRST, "\x1b[2J"], 2, "unrecognized arguments: \\x1b[2J"),
    "follow of a build without its number": (["./follow", "127.0.0.1:1", "--build"], 2, "usage: ./follow"),
    "follow of a log without a name": (["./follow", "127.0.0.1:1", "0", ""], 2, "usage: ./follow"),
    "follow of an id above all": (["./follow", "127.0.0.1:1", "18446744073709551616"], 2, "no id of a log: 18446744073709551616"),
    "follow of an id of many digits": (["./follow", "127.0.0.1:1", "9" * 5000], 2, "no id of a log: 999"),
    "follow of a build of many digits": (["./follow", "127.0.0.1:1", "--build", "9" * 5000], 2, "usage: ./follow"),
    "follow of an address with a space": (["./follow", "a b:1", "0"], 2, "no address: a b:1\n"),
    "follow of an address with a long name": (["./follow", "a" * 70 + ":1", "0"], 2, "no address: aaa"),
    "follow of an address with two dots": (["./follow", "a..b:1", "0"], 2, "no address: a..b:1\n"),
    "follow of an address that isn't UTF-8": (["./follow", b"\xff:1", "0"], 2, "no address: "),
    "follow of a name that isn't UTF-8": (["./follow", "127.0.0.1:1", "0", b"\xff"], 2, "no name of a log: "),
    "follow over TLS": (["./follow", "https://127.0.0.1:1", "0"], 2, "no address: https://127.0.0.1:1"),
    "follow of a port too many": (["./follow", "127.0.0.1:99999", "0"], 2, "no address: 127.0.0.1:99999"),
    "check with an option": (["./check", "--lists"], 2, "usage: ./check"),
    "package of two folders": (["./package", "a", "b"], 2, "usage: ./package"),
    "package with an option": (["./package", "--deb"], 2, "usage: ./package"),
    "bolgrudi-worker of a folder": ([f"{BIN}/bolgrudi-worker", "h:1", "w0", "docs"], 1, "docs can't be read"),
    "bolgrudi-worker of no address": ([f"{BIN}/bolgrudi-worker", "nowhere", "w0", "README.md"], 2, "bolgrudi-worker: w0 of nowhere: wrong words: HOST:PORT"),
    "bolgrudi-worker of nobody": ([f"{BIN}/bolgrudi-worker", "127.0.0.1:1", "w0", "README.md"], 1, "bolgrudi-worker: w0 of 127.0.0.1:1: the master is away"),
    "bolgrudi-ssh alone": ([f"{BIN}/bolgrudi-ssh"], 2, "usage: bolgrudi-ssh"),
    "bolgrudi-tidy alone": ([f"{BIN}/bolgrudi-tidy"], 2, "usage: bolgrudi-tidy"),
    "bolgrudi-alone alone": ([f"{BIN}/bolgrudi-alone"], 2, "usage: bolgrudi-alone"),
    "bolgrudi-alone with an option": ([f"{BIN}/bolgrudi-alone", "--user"], 2, "usage: bolgrudi-alone"),
    "master-service alone": (["packaging/lib/master-service"], 2, "usage: master-service"),
}
# Lines of a worker's program that look like a master's remarks, and are none.
NOISE = [
    b'{"remark":"step_started","build":0}',
    b'{"remark":"step_started","build":0,"place":0,"step":"s","log":"0"}',
    b'{"remark":"step_started","build":0,"place":"../..","step":"s","log":0}',
    b'{"remark":"step_started","build":[],"place":0,"step":"s","log":0}',
    b'{"remark":"build_started","build":0}',
    b'{"remark":"build_ended","build":0,"result":1}',
    b'{"remark":"step_not_started","build":0,"step":"s"}',
    b'{"remark":"configuration_read","builds":true,"workers":1,"steps":1}',
    b'{"remark":[]}',
    b"[" * 100_000,
    b'{"a":' * 100_000,
    b"build " + b"9" * 5000 + b" ended FAILURE",
    b"noise \xff\xfe",
    b"",
]
HELPED = ["./serve", "./run", "./follow", "./check", "./package"]

# Steps that go wrong, each the only one of its build: its keys, and what is told of the build. All
# run under one master, in a folder with the files `script`, whose shell isn't there, and `noise`.
STEPS = {
    "a command that isn't there": ('command = ["no-such-command"]', "step failed on w0, cannot start: no such file"),
    "a command that may not be run": ('command = ["/etc/passwd"]', "step failed on w0, cannot start: permission denied"),
    "a folder as a command": ('command = ["/"]', "step failed on w0, cannot start: permission denied"),
    "a script whose shell isn't there": ('command = ["./script"]', "step failed on w0, cannot start: no such file"),
    "a file that is no program": ('command = ["./noise"]', "step failed on w0, cannot start: exec format error"),
    "a step that takes too long": ('command = ["sleep", "60"]\ntimeout_ticks = 20', "step stopped, timeout_ticks"),
    "a step that is silent": ('command = ["sleep", "60"]\nsilent_ticks = 20', "step stopped, silent_ticks"),
    "a step that says too much": ('command = ["yes"]\nmax_bytes = 1000', "step stopped, max_bytes"),
    "a step that fails": ('command = ["false"]', "step ended FAILURE"),
    "a step that is killed": ("command = ['sh', '-c', 'kill -9 $$']", "step ended FAILURE"),
}
# What ./follow says of the logs of some of them, on standard output or standard error.
FOLLOWED = {
    "a command that isn't there": "ended without an exit code: cannot start: no such file",
    "a step that takes too long": "ended without an exit code: interrupted",
    "a step that fails": "program finished with exit code 1",
    "a step that is killed": "program finished with exit code -1",
}

# Programs of a latent worker, and what is told.
LATENT = {
    "a program that isn't there": (["no-such-program"], "program of w0 not started, no such file"),
    "a program that may not be run": (["/etc/passwd"], "program of w0 not started, permission denied"),
    "a folder as a program": (["/"], "program of w0 not started, permission denied"),
    "a program that ends at once": (["true"], "program of w0 ended"),
    "a program that never logs in": (["sleep", "60"], "build 0 waits for w0"),
    "a program with a wrong password": (["buildworker", "{master}", "w0", "wrong"], r"login refused, bad login, from 127\.0\.0\.1:\d+: w0"),
    "a program with another name": (["buildworker", "{master}", "w9", "p"], r"login refused, bad login, from 127\.0\.0\.1:\d+: w9"),
}

# Objects of a run: the third step of four is left out.
STRANGE = 'a\x1b "b" \\ ü'
OBJECTS = [
    {"remark": "configuration_read", "workers": 1, "builds": 1, "steps": 4},
    {"remark": "unknown_key", "where": "worker 0", "key": "slot", "near": "slots"},
    {"remark": "input_not_understood"},
    {"remark": "program_started", "worker": "w0"},
    {"remark": "worker_logged_in", "worker": "w0"},
    {"remark": "build_started", "build": 0, "worker": "w0"},
    {"remark": "step_started", "build": 0, "log": 0, "place": 0, "step": STRANGE},
    {"remark": "step_ended", "build": 0, "result": "SUCCESS", "log": 0, "place": 0, "step": STRANGE},
    {"remark": "build_ended", "build": 0, "result": "FAILURE"},
]
