"""What the program pulleynavy says of its commands and options: the one source of its help texts, manual page and completions."""

# Names of the sections of a module, and of custom sections, that are offered after --section.
SECTIONS = "custom type import function table memory global export start element code data datacount tag".split()
CUSTOM = "name producers target_features linking dylink.0".split()

PURPOSE = "list, show, check and edit WebAssembly binaries"

ABOUT = (
    "pulleynavy reads WebAssembly modules, and the headers of components. It does not validate them, and it does not decode function bodies.",
    "Options come before or after files. The value of an option is the next argument, or follows the '=' of a long option or the letter of a short one, as in -oOUT. Without a FILE, or with '-', a command reads standard input. 'pulleynavy COMMAND --help' says more.",
)

# Options: how they are written, the name of their value, a summary for completions, and the text.
HELP = ("-h, --help", None, "print a summary", "Prints a summary.")
VERSION = ("-V, --version", None, "print the version", "Prints the version, and that of the wasmparser crate whose names it follows.")
PROGRESS = ("--no-progress", None, "show no progress of large files", "Shows no progress. For files above 64 MiB it is otherwise a line on standard error, if that is a terminal.")
END = ("--", None, None, "Ends the options: all arguments after it are files.")
# Those of each command.
COMMON = (PROGRESS, END, HELP, VERSION)

# Of each command: its summary, its call, what it does, its own options, the statuses 0 and 1, and examples.
COMMANDS = {
    "list": {
        "summary": "list the parts of binaries",
        "call": "[--json] [FILE...]",
        "about": (
            "Writes a line for each part of each FILE: the header, each section with its offsets and its number of items, each function body, and the end. A fault of the file is the last line, with its offset.",
            "Lines for sections have their names in the standard and their sizes, those for function bodies their sizes. Those for custom sections end with their own names, in quotes. With several files, each listing follows the name of its file.",
        ),
        "options": (("--json", None, "write a JSON object per line", "Each line is a JSON object, for programs. Its last member, file, is the name of the file."),),
        "good": "All files were read to their ends. Headers, and the order, sizes and counts of sections and bodies, are checked. A malformed item does not change the status.",
        "bad": "A file has a fault at which reading stops.",
        "examples": (("List the parts of a module:", "pulleynavy list a.wasm"),),
    },
    "dump": {
        "summary": "show every item of binaries",
        "call": "[--names] [--bytes] [--hex] [--color[=WHEN]] [--json] [--section ID|NAME]... [FILE...]",
        "about": (
            "Shows what each FILE contains: a line for each section and function body, and below it a line for each item, which begins with the offset of the item in the file. With several files, each dump follows the name of its file.",
            "In an object file a relocation ends with the name of its symbol.",
            "A malformed item is a line that begins with fault, and the next section follows. A fault of the file itself is the last line. Function bodies are ranges of bytes.",
        ),
        "options": (
            ("--names", None, "show the names of items", "Each file is read twice, and items, and what refers to them, are shown with their names from the custom sections called 'name', or else from the symbol table of an object file. Only regular files can be read twice: standard input and pipes are refused."),
            ("--bytes", None, "show the bytes of each line", "Each line follows the bytes that it was read from, in hexadecimal. In the line itself only the first 16 of raw bytes are shown, and '..' if there are more."),
            ("--hex", None, "write offsets in hexadecimal", "Offsets are hexadecimal, as 0x1f. All other numbers stay decimal."),
            ("--color", "[=WHEN]", "write colors for a terminal", "The text has colors for a terminal: 'always', which is also meant without WHEN, 'never', or 'auto' if the output is a terminal."),
            ("--json", None, "write a JSON object per line", "Each line is a JSON object, for programs. Its last member, file, is the name of the file. Excludes --bytes, --hex and --color."),
            ("--section", "ID|NAME", "show only this section", "Only sections with this id, with this name in the standard (custom, type, import, function, table, memory, tag, global, export, start, element, datacount, code, data), or custom sections with this name are shown. The option may be repeated. If a file has none of them, a warning says so."),
        ),
        "good": "All files were read to their ends, and each --section chose something of each. A malformed item does not change the status.",
        "bad": "A file has a fault at which reading stops, or lacks a section that was asked for.",
        "examples": (
            ("Show everything:", "pulleynavy dump a.wasm"),
            ("Show imports only, from standard input:", "pulleynavy dump --section import < a.wasm"),
            ("Show functions with their names, in a pager:", "pulleynavy dump --names --color a.wasm | less -R"),
            ("Print the names of all exports:", "pulleynavy dump --json --section export a.wasm | jq -r 'select(.level == 1).name'"),
        ),
    },
    "check": {
        "summary": "find malformed items in binaries",
        "call": "[--quiet] [FILE...]",
        "about": (
            "Reads the items of every section that it knows, and writes a line for the first malformed one of each list: the file, the offset, what is wrong, and the section. It writes nothing of a well-formed file, except a warning for each section with an unknown id.",
            "It knows the sections of the core standard, and of the custom sections name, producers, target_features, linking, reloc.*, dylink.0, branch hints and core dumps. If the data of such a section cannot be read, that is a fault. It does not look at the instructions of function bodies, and it does not validate.",
        ),
        "options": (("-q, --quiet", None, "write nothing", "Writes nothing. The exit status alone says whether there is a fault."),),
        "good": "No file has a fault.",
        "bad": "A file has a fault.",
        "examples": (("Check all modules of a folder:", "pulleynavy check *.wasm"),),
    },
    "strip": {
        "summary": "remove custom sections",
        "call": "[--keep-names] [--keep NAME]... [--only NAME]... [--debug] [-o OUT] [FILE]",
        "about": (
            "Writes FILE without its custom sections, such as names and debugging information. All other bytes stay as they are. If FILE is malformed, nothing is written. Nothing is written to a terminal either: name OUT, or redirect the output.",
            "A NAME that ends with '*' stands for all names that begin with what is before the '*'. Elsewhere in a NAME a '*' stands for itself. Quote it, so that the shell does not replace it.",
            "A regular file is read twice instead of being kept in memory: first to check it, then to write it. Standard input is read into memory.",
            "Do not use --keep, --only or --debug on object files: their relocations name sections by number, and removing a section changes the numbers of those after it. Without these options all relocations are removed.",
        ),
        "options": (
            ("--keep-names", None, "keep the sections called name", "Keeps the custom sections called 'name'."),
            ("--keep", "NAME", "keep the custom sections with a name", "Keeps the custom sections with this name. The option may be repeated."),
            ("--only", "NAME", "remove only the custom sections with a name", "Removes only the custom sections with this name, and those that other such options name. A section that another option keeps is not removed."),
            ("--debug", None, "remove only the debug sections", "Removes only the debug sections, as --only '.debug_*' does, and those that --only names."),
            ("-o, --output", "OUT", "write to this file", "Writes to OUT instead of standard output. OUT is replaced once all of it is written, and may be FILE itself. It keeps its owner and permissions as far as the system allows, but not its set-user-ID and set-group-ID bits. A new file gets the permissions of FILE."),
        ),
        "good": "The file was stripped.",
        "bad": "The file has a fault, which is printed to standard error.",
        "examples": (
            ("Strip a module:", "pulleynavy strip a.wasm -o small.wasm"),
            ("Remove debugging information, and keep the names:", "pulleynavy strip --debug a.wasm -o small.wasm"),
            ("Remove some custom sections:", "pulleynavy strip --only producers --only 'source*' a.wasm > small.wasm"),
        ),
    },
    "extract": {
        "summary": "write the data of a custom section",
        "call": "[--index N] [-o OUT] NAME [FILE]",
        "about": (
            "Writes the data of the custom section called NAME of FILE: the bytes after the name. Sections after it are not looked at.",
            "FILE is read into memory. Reading it takes up to twice its size.",
        ),
        "options": (
            ("--index", "N", "write the section with this number", "Writes the N-th section of this name, counted from 1, if there are several."),
            ("-o, --output", "OUT", "write to this file", "Writes to OUT instead of standard output. OUT is replaced once all of it is written."),
        ),
        "good": "The data was written.",
        "bad": "The file has no such section before its first fault, or none at all. Nothing is written.",
        "examples": (("Save the notes of a build:", "pulleynavy extract build_id a.wasm -o build_id"),),
    },
    "add": {
        "summary": "append or replace custom sections",
        "call": "[--replace] [-o OUT] NAME=DATA... FILE",
        "about": (
            "Writes FILE with a custom section after its other sections for each NAME=DATA: NAME is its name, and the file DATA, or standard input for '-', has its data. Only one of the files may be standard input. All other bytes stay as they are. If FILE is malformed, nothing is written.",
            "A regular FILE is read twice instead of being kept in memory: first to check it, then to write it. The data is read into memory.",
        ),
        "options": (
            ("--replace", None, "replace sections with these names", "Replaces each custom section of FILE that has one of these names, in its place. A section that FILE does not have is appended."),
            ("-o, --output", "OUT", "write to this file", "Writes to OUT instead of standard output. OUT is replaced once all of it is written, and may be FILE itself. It keeps its owner and permissions as far as the system allows, but not its set-user-ID and set-group-ID bits. A new file gets the permissions of FILE."),
        ),
        "good": "The sections were added.",
        "bad": "The file has a fault, which is printed to standard error.",
        "examples": (("Add a license, in place:", "pulleynavy add --replace license=LICENSE a.wasm -o a.wasm"),),
    },
    "producers": {
        "summary": "show or set the tools of a module",
        "call": "[--set FIELD=NAME[:VERSION]]... [-o OUT] [FILE]",
        "about": (
            "Shows the custom section called 'producers' of FILE: the languages and tools that the module was produced with, as 'pulleynavy dump' shows them. With --set it writes FILE with other ones: in the first such section, or in a new one after the others. All other bytes stay as they are. If FILE is malformed, nothing is written.",
            "With --set FILE is read into memory. Reading it takes up to twice its size.",
        ),
        "options": (
            ("--set", "FIELD=NAME[:VERSION]", "set a language or tool", "Sets the version of the language or tool NAME, or adds it. FIELD is 'language', 'processed-by' or 'sdk', NAME is not empty, and VERSION is all after the first colon. The option may be repeated."),
            ("-o, --output", "OUT", "write to this file", "With --set, writes to OUT instead of standard output. OUT is replaced once all of it is written, and may be FILE itself. It keeps its owner and permissions as far as the system allows, but not its set-user-ID and set-group-ID bits. A new file gets the permissions of FILE."),
        ),
        "good": "The section was shown, or the file was written.",
        "bad": "The file has a fault, which is printed to standard error, or no such section.",
        "examples": (("Note the compiler, in place:", "pulleynavy producers --set processed-by=mycc:1.2 a.wasm -o a.wasm"),),
    },
}

WRONG = "The arguments are wrong."
FAILED = "A file or device failed, or memory ran out. The reason is printed to standard error, unless the output is a pipe that its reader has closed."
GREATEST = "With several files the exit status is the greatest of theirs."

NOTES = (
    "Until OUT is complete, it is written beside its place as OUT.pulleynavy-N-M.tmp. An interrupt, such as Ctrl-C, leaves that file: remove it. OUT itself is unchanged then.",
    "Arguments have to be valid UTF-8, and so do the names of files: if one is not, the program refuses all of them with exit status 2.",
    "The offset of a fault is that of the byte that is wrong, or of the first one that is missing. A name that is not UTF-8 is the exception: its fault is at its last byte, as in the wasmparser crate.",
)
