# Holds lines of answers to a transcript, and counts its answers by request.
# usage: awk -v given=ANSWERS -f oracle/held.awk TRANSCRIPT
# Says of each request how many answers it has and how many of them are given otherwise, and shows five of these, on
# the shortest tables. The status is 1 where there are any, and 2 where the transcript is cut short, its answers are not
# as many as it says, or there are fewer or more lines of answers than requests.
# Where the transcript says no number of a request, as of `table`, its lines are counted. Answers are compared as text,
# with "" beside them, since awk takes 00 and 0 for the same number.

# How many answers a line is: as many as a list has items, otherwise one.
function answers(line) {
    if (line == "-") return 0
    if (word == "param" || line ~ /^refused/) return 1
    return gsub(/,/, ",", line) + 1
}

# What the request is asked of.
function subject() {
    if (word == "flookup") return held["floats"]
    if (word ~ /^(lookup|row|inverse|invert|gamma|dlookup|monotonic|degenerated|write)$/) return held["table"]
    return ""
}

function cut(text) {
    return length(text) > 160 ? substr(text, 1, 158) ".." : text
}

# Keeps a difference in its place by the length of its table, unless five shorter ones are kept.
function keep(question, wanted, got,    of, at) {
    of = subject()
    for (at = kept[word]; at > 0 && size[word, at] > length(of); at--) {
        shown[word, at + 1] = shown[word, at]
        size[word, at + 1] = size[word, at]
    }
    size[word, at + 1] = length(of)
    shown[word, at + 1] = "  line " NR ": " cut(question) ": wanted " cut(wanted) ", given " cut(got) \
        (of == "" ? "" : " (" cut(of) ")")
    if (kept[word] < 5) kept[word]++
}

# Counts what differs. Of a list of answers to a list of questions the first that differs is shown with its question.
function compare(wanted, got,    n, i, first, w, g, q) {
    n = answers(wanted)
    if (n < 2 || answers(got) != n) {
        differing[word] += n ? n : 1
        keep(request, wanted, got)
        return
    }
    split(wanted, w, ",")
    split(got, g, ",")
    for (i = n; i > 0; i--)
        if (w[i] "" != g[i] "") {
            differing[word]++
            first = i
        }
    if (split(asked, q, ",") == n) keep(words " " q[first], w[first], g[first])
    else keep(request ", place " first - 1, w[first], g[first])
}

function trouble(text) {
    print "oracle: " text
    status = 2
}

ended { trouble("the transcript goes on after its end"); exit }
waits && /^[>#]/ { trouble("line " NR " should be the answer to " cut(request)); exit }
!waits && !/^[>#]/ { trouble("line " NR " answers no request"); exit }
/^# end$/ { ended = 1; next }
/^# [a-z0-9]+: [0-9]+;/ { said[substr($2, 1, length($2) - 1)] = $3 + 0; next }
/^#/ { next }
/^> / {
    request = substr($0, 3)
    word = $2
    asked = $NF
    words = substr(request, 1, length(request) - length(asked) - 1)
    held[word] = request
    if (!(word in counted)) order[++requests] = word
    waits = 1
    next
}
(getline got < given) <= 0 { trouble("the answers end before that of line " NR ", " cut(request)); exit }
{ counted[word] += answers($0); waits = 0 }
$0 "" != got "" { compare($0, got) }

END {
    if (!status && !ended) trouble("the transcript is cut short")
    if (!status && (getline got < given) > 0) trouble("there are more answers than requests")
    for (word in said) if (!(word in counted)) trouble("the transcript has no " word)
    if (status) exit status
    for (i = 1; i <= requests; i++) {
        word = order[i]
        unit = word in said ? "answers" : "lines"
        print word ": " counted[word] " " unit ", " differing[word] + 0 " given otherwise"
        for (at = 1; at <= kept[word]; at++) print shown[word, at]
        if (differing[word] && !status) status = 1
        if (word in said) {
            all += counted[word]
            if (said[word] != counted[word]) trouble("the transcript says that these are " said[word])
        }
    }
    print "all: " all + 0 " answers"
    exit status
}
