# Explains the refusals of an answer: awk -v command=.. -v program=.. -v cut=.. -f explain.awk ANSWER TEXT
#
# command is the name to speak under, program the one that answered, and cut is 1 where the text's last line lacks its LF. A refused plan has one
# explanation. Of a session's steps each number of refusal has one, at the first step that it refused. Faults are named in the order of document 01:
# where line D is faulty, all lines before it are right.

FILENAME != "-" { answers[++count] = $0; next }
{ lines[++last] = $0 }

END {
    read_plan()
    for (k = 1; k <= count; k++) {
        if (answers[k] !~ /^refused=/) {
            note(answers[k])
            continue
        }
        split(substr(answers[k], 9), parts, ",")
        number = parts[1] + 0
        value = parts[2] + 0
        if (seen[number]++) continue
        if (number <= 3 && value > 0) explain_line(number, value)
        else if (number <= 5) explain_plan(number, value)
        else explain_step(number, plan_lines + k)
    }
    for (number = 6; number <= 12; number++)
        if (seen[number] > 1) more = more (more == "" ? "" : ", ") seen[number] " steps by " number
    if (more != "") say("refused in all: " more)
}

# ---- what is said, and how

# A line under the command's name, and lines that go on.
function say(words) { print command ": " words }
function also(words) { print "  " words }

# A line of the text, as it can be shown: not too much of it, and a CR that can be seen.
function shown(line,    text) {
    text = lines[line]
    gsub(/\r/, "\\r", text)
    return length(text) > 100 ? substr(text, 1, 100) " .. (" length(text) " bytes)" : text
}

function after(line, key) { return substr(lines[line], length(key) + 1) }

# A whole number with commas.
function grouped(digits,    out) {
    while (length(digits) > 3) {
        out = "," substr(digits, length(digits) - 2) out
        digits = substr(digits, 1, length(digits) - 3)
    }
    return digits out
}

# Jobs and bounds as the text has them, and where the plan ends. Of a text that is faulty before these lines they are not looked at.
function read_plan() {
    jobs = after(4, "jobs=") + 0
    bounds_line = 5 + 4 * jobs
    bounds = after(bounds_line, "bounds=") + 0
    plan_lines = bounds_line + bounds
}

# What a later refusal is explained by: the offer, or the job that runs.
function note(answer,    parts) {
    split(substr(answer, index(answer, "=") + 1), parts, ",")
    if (answer ~ /^offer=/) { low = parts[1]; high = parts[2]; asked = 1 }
    if (answer ~ /^started=/) { job = parts[2]; start = parts[3]; asked = 0 }
    if (answer ~ /^final=/) asked = 0
}

# ---- the kinds of line

# The key that line D has to have, by its place; the job it is of in `owner`.
function kind(line,    keys) {
    owner = 0
    split("window rounds last jobs min max release deadline", keys, " ")
    if (line <= 4) return keys[line]
    if (line < bounds_line) {
        owner = int((line - 5) / 4) + 1
        return keys[5 + (line - 5) % 4]
    }
    if (line == bounds_line) return "bounds"
    if (line <= plan_lines) return "bound"
    return program == "dispatch" ? "step" : "end"
}

# The range of a key's number.
function range(key) {
    if (key == "window") return "1 to 86,400,000"
    if (key == "rounds") return "1 to 1,000"
    if (key == "last") return "1 to 1,000,000,000"
    if (key == "jobs") return "1 to 9"
    if (key == "min" || key == "max") return "0 to 86,400,000"
    if (key == "release" || key == "deadline") return "0 to 172,800,000"
    if (key == "bounds") return "0 to 64"
    if (key == "bound") return "-1,000,000,000 to 1,000,000,000"
    return "0 to 100,000,000,000,000,000"
}

# What a line of this kind looks like.
function form(key, line) {
    if (key == "bound") return "bound=A,B,c (number " (line - bounds_line) " of " bounds "), with events as ts1 or nf2: t or n, s or f, a job's digit"
    if (key == "step") return "a step: ask=offer, start=T, start=auto or finish=T"
    if (key == "end") return "the end: by bounds=" bounds " the plan ends with line " plan_lines
    return key "=N" (owner ? " of job " owner : "") ", N a whole number from " range(key)
}

# ---- 1, 2 and 3 of a line

function explain_line(number, line,    key, text) {
    key = kind(line)
    text = lines[line]
    if (line > last) say("refused=" number "," line ": there is no line " line "; the text ends before it")
    else {
        say("refused=" number "," line ": line " line " " (number == 1 ? "lacks the form" : number == 2 ? "has a number out of range" : "has a wrong pair of events"))
        also("it is:     " (text == "" ? "(empty)" : shown(line)))
    }
    if (number == 1) explain_form(key, line, text)
    else if (number == 2) explain_range(key, line, text)
    else explain_pair(line, text)
    if (key == "step") also("The answers before this step stand; the steps after it were not read.")
}

function explain_form(key, line, text,    before) {
    also("should be: " form(key, line))
    before = hints
    if (line > last) hint("A line is missing: each line is ended by one LF, the last one too.")
    if (cut && line == last) hint("It lacks its LF: the last line is ended by one, as the others are.")
    if (text ~ /\r$/) hint("It ends with CR LF, and has to end with LF alone: tr -d '\\r' takes the CR out.")
    if (text ~ /[ ?]/) hint("It has spaces or other bytes that have no place in it.")
    if (text ~ /[=,]\+/) hint("A number has no plus.")
    if (text ~ /[=,]-?0[0-9]/) hint("A number has no leading zeros.")
    if (text ~ /[=,]-0$/) hint("0 has no minus.")
    if (text != "" && key ~ /^(window|rounds|last|jobs|min|max|release|deadline|bounds)$/ && index(text, key "=") != 1)
        hint("The lines have a fixed order: one is missing, doubled or misplaced" (key == "bounds" ? ", or jobs=" jobs " is not the number of jobs" : "") ".")
    if (key == "bound" && text !~ /^bound=/) hint("bounds=" bounds " says how many bound= lines follow it.")
    if (key ~ /^(step|end)$/ && text ~ /^bound=/) hint("bounds=" bounds " in line " bounds_line " has to count the bound= lines.")
    if (key == "end" && text ~ /^(ask|start|finish)=/) hint("This is a session: gekumosari dispatch answers its steps.")
    if (hints == before) hint("gekumosari-" program "(1) says what stands in it, and in which order.")
}

function hint(words) { hints++; also(words) }

function explain_range(key, line, text,    low_end) {
    also("should be: " (key == "bound" ? "c from " range(key) ", and job digits from 1 to " jobs : \
        key == "step" ? "T from " range(key) : key "=N" (owner ? " of job " owner : "") ", N from " range(key)))
    if (key == "max") also("A max is not below its job's min, which is " after(line - 1, "min=") " (line " (line - 1) ").")
}

function explain_pair(line, text,    parts, others, at) {
    split(substr(text, 7), parts, ",")
    if (parts[1] == parts[2]) also("An event has no distance to itself: A and B have to be two events.")
    else if (parts[1] ~ /^n/ && parts[2] ~ /^n/)
        also("Both events are of the next window. Write both with t: a bound holds in every window.")
    else for (at = bounds_line + 1; at < line; at++) {
        split(substr(lines[at], 7), others, ",")
        if (others[1] == parts[1] && others[2] == parts[2])
            also("Line " at " has this pair already. Of two bounds on one pair keep the one with the smaller c.")
    }
}

# ---- the length, the verdict

function explain_plan(number, value) {
    if (number == 1) {
        say("refused=1,0: the text has more than 65,536 bytes")
        also(program == "calendar" ? "No plan is that long: nine jobs and 64 bounds have some 2,000 bytes." : \
            "Drop the asks: they change nothing. If it is still too long, end this session after a whole window and begin a new one.")
    } else if (number == 2) {
        say("refused=2,0: a time is out of range: it is 0 to 100,000,000,000,000,000")
    } else if (number == 4) {
        say("refused=4," value ": no strategy: the starts of " grouped(value "") (value == 1 ? " window" : " windows") \
            " cannot be chosen so that all bounds hold, whatever the running times")
        if (value == 1) {
            also("One window alone does not fit. Try bounds=0 and no bound= lines. If that is refused by 4,1 too, the jobs do not fit between their")
            also("releases and deadlines when each runs for max; else a bound between two t events is too tight for some running time.")
        } else if (value == 2) {
            also("Two neighbouring windows do not fit together: loosen a bound that has an n event, or an early deadline of the next window's first job.")
        } else {
            also("Fewer windows can be done, but each has to start a little earlier or later than the one before, until there is no room left: a bound")
            also("with an n event forces the shift, or the jobs at max are together longer than the window.")
        }
        also("The guide tells how to find the line: take all bounds out, and put them back one at a time.")
    } else {
        say("refused=5," value ": unsettled: " grouped(value "") " rounds tell neither that the plan has a strategy nor that it has none")
        also(value < 1000 ? "Raise rounds= in line 2, up to 1000: it is a limit, not a cost." : \
            "1000 is the most: look for a bound that is off by a few milliseconds, and loosen it or leave it out.")
    }
}

# ---- steps; the session goes on

function explain_step(number, line,    min, max) {
    say("refused=" number ",0: line " line ", " shown(line) ": " \
        (number == 6 ? "a job is running" : number == 7 ? "no job is running" : number == 8 ? "the start is outside the offer" : \
        number == 9 ? "the finish is earlier than start + min or later than start + max" : number == 10 ? "the run is over" : \
        number == 11 ? "the offer is empty" : "the answer is longer than the lent slice"))
    if (number == 6) also("Job " job " runs since " start ". Tell its finish first. If it was cancelled, see 'Cancel before max' in the guide.")
    if (number == 7) also("Its start was refused, or its finish was reported before.")
    if (number == 8) {
        also(asked ? "The offer was from " low " to " high ", both included." : "ask=offer before it tells from when to when it may start.")
        also("Too early: wait. Too late: no later start keeps all bounds for sure; see 'A missed offer' in the guide.")
    }
    if (number == 9) {
        min = after(5 + 4 * (job - 1), "min=")
        max = after(6 + 4 * (job - 1), "max=")
        also("Job " job " runs since " start ", for " min " at least and " max " at most. Do not store this count.")
    }
    if (number == 10) also("Window " after(3, "last=") " (last=) has had its last finish: begin a new session, or write a larger last=.")
    if (number == 11) also("It is proved that no session leads here: the program that answered is not the proved one.")
    if (number == 12) also("Lend a longer slice.")
}
