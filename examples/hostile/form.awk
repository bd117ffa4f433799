# Reads what a command wrote to stderr, and says in one line what in it isn't of the listed forms: docs/COMMANDS.md "The
# report", "The trace", "Statuses". Nothing is said where all is. It is told by -v:
#
#   command  the first word, or - where the words have no meaning
#   words    all words, with blanks       status  the number with which it ended
#   order    how many bytes the schedule has, or -1 without one
#   lines    how many line feeds there are
#   tight    not empty where memory may be wanting even for the words, and room for the stack: then the system ends the
#            program by signal 11, before it has written anything
BEGIN {
    digit = "[0-9a-f]"
    digits = digit digit digit digit digit digit digit digit
    hex = "0x" digits
    number = "(0|[1-9][0-9]*)"
    registers = ""
    for (i = 0; i < 32; i++) registers = registers " " digits
    kind = "(segment|root|mid|leaf|spill)"
    turns = "(idle|waited|ran|crossed|returned|trapped|called)"
    place = "(manifest|module\\." number "|hart\\." number "|schedule)"
    parts = number "/" number

    schedule_limit = 16777216

    # A run that is taken up goes on counting turns.
    split(words, word, " ")
    asked = command == "resume" ? 1e18 : word[3] + 0
    tables = words ~ / --tables/
    counts = words ~ / --counts/

    refusal[2] = "mondrix: these words have no meaning"
    refusal[3] = "refused fault=" number " at=" place " key=[a-z_]+ detail=" number
    refusal[3] = refusal[3] "|refused fault=" number " at=" place " key=- detail=" number
    refusal[4] = "tables full upper=" parts " leaf=" parts " spill=" parts
    refusal[5] = "store fault|short file .+ told=" number " got=" number
    refusal[6] = "no file .+"
    refusal[11] = "asm line=" number " fault=" number
    refusal[12] = "twin unlike key=(ram_kib|quantum|module|hart)"
    refusal[13] = "twin no domain"
    refusal[14] = "snapshot fault=[1-5] at=" number

    allowed["asm"] = " 0 2 5 6 10 11 "
    allowed["run"] = allowed["trace"] = allowed["audit"] = allowed["debug"] = " 0 2 3 4 5 6 10 "
    allowed["twin"] = " 0 2 3 4 5 6 10 12 13 "
    allowed["resume"] = " 0 2 3 4 5 6 10 14 "
    allowed["mill"] = " 0 2 10 "
    allowed["-"] = tight ? " 2 10 " : " 2 "

    faults()
    part = "notes"
    harts = domains = 0
}

# Where each fault of a manifest may be, and with which key and detail.
function faults() {
    top = "version|ram_kib|tables|upper|leaf|spill|lookaside|quantum|module|hart"
    module = "name|image|at|perm|words|wx|heap|heap_words|stack|stack_words|gates|returns|on_fault|seal|input|" \
        "input_at|input_words|input_perm"
    keys = "(manifest (" top ")|module (" module ")|hart (module|entry)) 0"
    fault[1] = "manifest - 0"
    fault[2] = "((manifest|module|hart) -|module gates) 0"
    fault[3] = fault[4] = fault[5] = keys
    fault[6] = "module (image|wx) 0"
    fault[7] = "module name 0"
    fault[8] = "(module gates|hart module) 0"
    fault[9] = "(manifest -|module (image|input)|schedule -) 0"
    fault[10] = "module image ([1-9]|10)"
    fault[11] = "module image ([0-9]|1[0-5])"
    fault[12] = "module (image|at|heap|stack|input_at) 0"
    fault[13] = "module (image|at|heap|stack|input_at) ([1-9]|[1-5][0-9]|6[0-3])"
    fault[14] = fault[15] = "(module (gates|returns)|hart entry) 0"
    fault[16] = fault[17] = "module (gates|returns) 0"
}

function wrong(what) {
    if (!told) print what ": line " NR ": " substr($0, 1, 200)
    told = 1
    exit
}

function is(pattern) { return $0 ~ "^(" pattern ")$" }

# The number behind `name=`.
function of(name) {
    match($0, " " name "=[0-9]+")
    return substr($0, RSTART + length(name) + 2, RLENGTH - length(name) - 2) + 0
}

function refused_rightly(    at) {
    if (!match($0, /fault=[0-9]+/)) return 0
    at = $0
    sub(/^.* at=/, "", at)
    sub(/\.[0-9]+/, "", at)
    sub(/ key=/, " ", at)
    sub(/ detail=/, " ", at)
    return at ~ "^(" fault[of("fault")] ")$"
}

/[[:cntrl:]]/ { wrong("a control character") }

# A refusal is one line.
status != 0 {
    if (!(status in refusal)) wrong("a line with status " status)
    if (NR > 1) wrong("a second line")
    if (!is(refusal[status])) wrong("no listed line")
    if (status == 3 && !refused_rightly()) wrong("no place of this fault")
    if (command == "resume" && status == 3 && !/^refused fault=9 at=schedule/) wrong("no refusal of a snapshot")
    if (/^refused fault=9 at=schedule/ && order <= schedule_limit) wrong("a schedule under its limit")
    if (status == 11 && (of("fault") > 11 || (of("fault") == 11) != (of("line") == 0))) wrong("no fault of a source")
    next
}

command == "asm" || command == "debug" { wrong("a line of " command) }

# Reports of few lines, in their order.
command == "twin" && NR == 1 && is("twin agreed steps=" number "|twin ended step=" number " hart=[0-3] kind=" turns) {
    part = "over"
    next
}
command == "audit" && part == "notes" && is("live [1-9][0-9]* [a-z0-9_]+") && $2 + 0 > live + 0 { live = $2; next }
command == "audit" && part == "notes" && is("sealed " hex " " hex) && $2 "" < $3 "" && from "" <= $2 "" {
    from = $3
    next
}
command == "audit" && part == "notes" && is("sealed words=" number) {
    part = "over"
    next
}
command == "mill" && NR == 1 && is("mill k=" number " steps=" number " state=(steps|halted)") { next }
command == "mill" && NR == 2 && is("console=" number " faults=" number " exits=" number) { next }
command == "mill" && NR == 3 && is("counts sidecar=" number " lookaside=" number " walks=" number) { next }
command == "mill" && NR == 4 && is("tables kind=packed upper=" number " leaf=" number " spill=" number) {
    part = "over"
    next
}

# Steps of faults, exits and turns don't fall; those of turns count on.
command != "trace" && part == "notes" && is("fault step=" number " hart=[0-3] domain=" number " pc=" hex " cause=" \
    "([0-7]|1[6-9]|20) value=" hex "|exit step=" number " hart=[0-3] domain=" number " code=-?" number) {
    if (of("step") <= step || of("step") > asked) wrong("no step of this run")
    step = of("step")
    next
}

command == "trace" && part == "notes" && is("turn " number " [0-3] [1-9][0-9]* " hex " " turns \
    " (-|[a-z]+( [-x0-9, ()]+)?)|turn " number " " number " - - idle -") {
    if ((step && $2 != step + 1) || $2 > asked) wrong("no step of this trace")
    step = $2
    next
}

part == "notes" && is("end steps=" number " state=(halted|steps|schedule)") {
    steps = of("steps")
    state = substr($0, index($0, "state=") + 6)
    if (steps > asked || steps < step || (order >= 0 && steps > order && command != "resume"))
        wrong("no count of turns")
    if (state == "steps" && steps != asked && command != "resume") wrong("an early end")
    if (state == "schedule" && (order < 0 || (command != "resume" && (steps != order || steps == asked))))
        wrong("no end of a schedule")
    part = command == "trace" ? "over" : "harts"
    next
}

part == "harts" && is("hart " harts " status=(running|waiting|halted) domain=" number " pc=" hex " frames=" number) {
    if (of("frames") > 64) wrong("too many frames")
    part = "registers"
    next
}
part == "registers" && is("regs " harts registers) && $3 == "00000000" {
    harts++
    part = "harts"
    next
}

(part == "harts" || part == "domains") && is("domain " (domains + 1) " [a-z0-9_]+( dead)?") {
    domains++
    from = ""
    part = "domains"
    next
}
part == "domains" && is("map " domains " " hex " " hex " (r|rw|rx)") && $3 "" < $4 "" && from "" <= $3 "" {
    from = $4
    next
}
(part == "domains" || part == "owners") && is("owner " hex " " hex " [1-9][0-9]*") && $2 "" < $3 "" {
    if ($4 > domains || (part == "owners" && $2 "" < from "")) wrong("no owner")
    from = $3
    part = "owners"
    next
}

tables && (part == "domains" || part == "owners") && \
    is("tables kind=(segments|multilevel|packed) upper=" parts " leaf=" parts " spill=" parts) {
    part = "tables"
    shown = 1
    next
}
part == "tables" && is("shown " number " " kind " " hex " " hex) && $2 >= shown && $2 <= domains {
    shown = $2
    next
}

counts && (part == "counts" || part == "tables" || (!tables && (part == "domains" || part == "owners"))) && \
    is("counts " (counted + 0) " sidecar=" number " lookaside=" number " walks=" number) {
    counted++
    part = "counts"
    next
}

{ wrong("no listed line of a report in part " part) }

END {
    if (told) exit
    if (tight && status == 139 && NR == 0) exit
    if (status == 0 && order > schedule_limit) wrong("a schedule over its limit")
    if (NR != lines) wrong("the last line isn't ended")
    if (index(allowed[command], " " status " ") == 0) wrong("status " status)
    if (status != 0) {
        if (NR != (status != 10)) wrong("no line")
    } else if (command != "run" && command != "resume" && command !~ /^(asm|debug)$/ && part != "over") {
        wrong("the report breaks off")
    } else if (command == "run" || command == "resume") {
        if (part != (counts ? "counts" : tables ? "tables" : part) || part !~ /domains|owners|tables|counts/ || \
            (counts && counted != harts)) wrong("the report breaks off")
    }
}
