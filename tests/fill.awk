# Prints a session that opens a site of 8 histories and fills its log to exactly as many bytes as each number in `stops` says.
# Its operations touch histories 0 to 3 only. At each stop all of them are stable and none is live: the log's last line there says so.

# Adds and finishes an operation that sets the histories from `first` to 3, and counts the bytes of its line.
function operation(id, first, operand,    version, updates, line, h) {
    version = "1844674407370955" sprintf("%04d", ++done)
    for (h = first; h < 4; h++) {
        updates = updates "(set " h " " version " " operand ")"
        line = line "(set " h " " version " " ++place[h] " " operand ")"
    }
    print "(add " id " " updates ")"
    print "(finish " id ")"
    used += length("(did " id " " line ")\n")
}

# Makes all operations stable, with the report that lets them leave the table.
function settle() {
    print "(persistent " done ")"
    print "(stable " done ")"
    print "(persistent " done ")"
    used += length(mark(done))
    settled = done
}

# The stable line of so many operations.
function mark(n) {
    return "(stable " n ")\n"
}

# An operation whose line has so many bytes, from 45 to 71: the operand, then the id, get longer.
function pad(bytes,    extra, digits) {
    extra = bytes - length("(did 100 (set 3 18446744073709550000 " place[3] + 1 " 1))\n")
    digits = extra < 9 ? extra : 9
    operation(zeros(extra - digits) sprintf("%02d", ++pads), 3, zeros(digits))
}

# 1 and so many zeros.
function zeros(n,    text) {
    for (text = "1"; n > 0; n--) text = text "0"
    return text
}

BEGIN {
    print "(site 8)"
    used = length("(site 8)\n")
    count = split(stops, stop, " ")
    for (i = 1; i <= count; i++) {
        while (stop[i] - used > 400) {
            operation("1844674407370955" sprintf("%04d", done), 0, "429496" (7295 - done))
            if (done - settled == 32) settle()
        }
        # at most six lines come before the stop's stable line
        goal = stop[i] - length(mark(done + 6))
        while (used < goal) {
            left = goal - used
            lines = int((left + 70) / 71)
            pad(int(left / lines))
        }
        settle()
        if (used != stop[i]) exit 1
    }
}
