"""The numbers and words of docs/GUIDE.md, each in this place alone."""
FILE_BYTES = 1048576  # of a guest's file, and of the memory that it asks for
PROGRAM_HEADERS = 16
THREADS = {1: 16, 2: 32}  # the most, by the version of a note
GUARDS = {1: 16, 2: 32}
GUARD_BYTES = 4, 65536  # the least and the most
STACK = range(0x7FFFC000, 0x80000000)

LOCK, UNLOCK, SLEEP, EXIT = 1, 2, 3, 93  # guest calls, by x17
CALLS = {LOCK: "LOCK", UNLOCK: "UNLOCK", SLEEP: "SLEEP", EXIT: "EXIT"}
HELD = 4  # locks that a thread may hold
SLEPT = 255  # blocks that a thread may sleep
TURNS = 4096  # of one block

KINDS = ("start", "on", "taken", "adopted", "granted")
SECTIONS = KINDS[2:]  # the kinds that begin a section
PASSED_ON = KINDS[3:]  # those of a section that a waiter was given

HISTORY_BYTES = 268435456  # of the history behind a guest's file
REJECTED = 6  # the program's status where a history is rejected, and why it is: of several reasons the first
REASONS = ("Text", "Thread", "Owner", "Block", "Kind", "Worker", "Incomplete")
# The names of a file's refusals, by their numbers.
REFUSALS = ("TooLarge", "TooShort", "BadMagic", "NotElf32Little", "NotExec", "NotRiscv", "BadFlags",
            "BadHeader", "Dynamic", "BadLoad", "Overlap", "WritableCode", "BadNote", "BadEntry", "BadGuard")

# The least and the most of each number that stands behind the program's words.
RUN = {"workers": (1, 8), "fuel": (1, 65536), "batch": (0, 256)}
NUMBERS = {**RUN, "rounds": (1, 2000), "nodes": (1, 8), "bound": (0, 256), "size": (1, FILE_BYTES)}
# The forms of the words: the letter and the name of each number. There are no more nodes than workers.
OPTIONS = {"W": "workers", "F": "fuel", "B": "batch"}
FORMS = {"run": OPTIONS, "gen": {"N": "rounds"}, "demo": {"N": "rounds", "W": "workers"},
         "replay": {"N": "size", **OPTIONS}, "nodes": {"G": "nodes", "K": "bound", **OPTIONS}, "profile": {"N": "size", **OPTIONS}}
SHAPES = [" ".join((form, *letters)) for form, letters in FORMS.items()]
USAGE = "usage: " + " | ".join(f"tclocks {shape}" for shape in SHAPES)
