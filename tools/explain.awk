# Makes the text of an explanation for tools/explain, each byte as an escape for `printf %b`. It reads the table of sentences, then
# `bytes`, then the bytes of a line as numbers: those before the place, a dot and a line feed, then `after` and those from the
# place on. fault and kind choose the sentence; token is what it speaks of, or else the size bytes, or the token, at the place.

BEGIN {
    for (i = 32; i < 127; i++) code_of[sprintf("%c", i)] = i
    # What stands for a character that isn't shown, for what is cut off, and for a wide blank.
    REPLACED = "\\0357\\0277\\0275"
    DOTS = "\\0342\\0200\\0246"
    WIDE_BLANK = "\\0343\\0200\\0200"
}

$0 == "bytes" || $0 == "after" {
    part = $0
    next
}
part == "" {
    at = index($0, " | ")
    sentence[substr($0, 1, at - 1)] = substr($0, at + 3)
}
part == "bytes" { for (i = 1; i <= NF; i++) left[++lefts] = $i + 0 }
part == "after" { for (i = 1; i <= NF; i++) right[++rights] = $i + 0 }

END {
    lefts -= 2
    if (kind == "" && part == "after") kind = kind_here()
    key = fault (kind == "" ? "" : " " kind)
    if (!(key in sentence)) key = fault
    if (!(key in sentence)) exit
    n = split(sentence[key], piece, "@")
    said = escaped(piece[1])
    for (i = 2; i <= n; i++) said = said name() escaped(piece[i])
    print said "\\n" (part == "after" ? line_and_caret() : "")
}

function escape(byte) {
    return sprintf("\\0%03o", byte)
}

function escaped(text,    i, out) {
    for (i = 1; i <= length(text); i++) out = out escape(code_of[substr(text, i, 1)])
    return out
}

# What the sentence speaks of, cut after 40 characters.
function name(    n, i, out) {
    if (token != "" || part != "after") return escaped(token)
    n = decode(right, 1, size == "" ? token_size() : size, shown, cells)
    for (i = 1; i <= n && i <= 40; i++) out = out shown[i]
    return out (n > 40 ? DOTS : "")
}

function is_digit(byte) {
    return byte >= 48 && byte <= 57
}

function is_of_word(byte) {
    return is_digit(byte) || byte >= 65 && byte <= 90 || byte == 95 || byte >= 97 && byte <= 122 || byte > 127
}

# How many bytes the token has that begins at the place.
function token_size(    i) {
    if (is_digit(right[1])) {
        for (i = 2; is_digit(right[i]); i++) ;
        return i - 1
    }
    if (is_of_word(right[1])) {
        for (i = 2; is_of_word(right[i]); i++) ;
        return i - 1
    }
    if (right[1] == 34) {
        for (i = 2; i < rights && right[i] != 34 && right[i] != 10; i++) if (right[i] == 92) i++
        return i
    }
    # == != <= >= && ||
    if (right[2] == 61 && (right[1] == 61 || right[1] == 33 || right[1] == 60 || right[1] == 62)) return 2
    return right[2] == right[1] && (right[1] == 38 || right[1] == 124) ? 2 : 1
}

# What the bytes at the place tell of the fault.
function kind_here(    i) {
    if (fault == "BadText BadChar") return right[1] == 124 ? "OR" : right[1] < 128 ? sprintf("%c", right[1]) : ""
    if (fault == "BadText Unknown") return byte_after(size) == 40 ? "(" : ""
    if (fault != "BadText Unexpected") return ""
    word = ascii(right, token_size())
    sub(/^0*/, "", word)
    if (word == "9223372036854775808") return "least"
    return kind_after(ascii(left, lefts), word)
}

# What the line before a token that can't be there tells of the mistake.
function kind_after(before, word) {
    gsub(/[ \t\r]+/, " ", before)
    sub(/^ /, "", before)
    sub(/ $/, "", before)
    if (word == "{" && before ~ /^fn [^{]*\)$/) return "result"
    if (word == "-" && before ~ /^fn [^{]*\)$/) return "arrow"
    if (word == ":" && before ~ /(^|[^A-Za-z0-9_])let [A-Za-z0-9_]+$/) return "let"
    if (word == "=" && before ~ /(^|[^A-Za-z0-9_])if [^{}]*$/) return "equal"
    if (word == "=" && before ~ /(^|[^A-Za-z0-9_])[A-Za-z_][A-Za-z0-9_]*( ?[-+*\/%])?$/) return "variable"
    if (word == "(" && before ~ /(^|[^A-Za-z0-9_])let$/) return "parts"
    if (before ~ /(^|[^A-Za-z0-9_])(spawn|stable)$/) return "call"
    if (before ~ /(^|[^A-Za-z0-9_])chan$/) return "channel"
    if (before ~ /[=({;,] ?chan ?\[[^={};]*\]$/) return "made"
    if (before ~ /: ?ref$/) return "reference"
    if (before ~ /(^|[^A-Za-z0-9_])(get|set|send|recv|pick|print|probe|stabilize|cut|pin|attempt|fst|snd)$/) return "act"
    if (before ~ /(^|[^A-Za-z0-9_])else$/) return "else"
    if (before ~ /:$/) return "type"
    if (before ~ /(^|[^A-Za-z0-9_])(let|fn)$/ && word ~ /^[a-z]+$/) return "reserved"
    if (before ~ /^fn [A-Za-z0-9_?]+ ?\(([^()]*,)?$/ && word ~ /^[a-z]+$/) return "reserved"
    if (before ~ /(^|[^A-Za-z0-9_])(while|for|loop)$/) return "loop"
    if (before ~ /(^|[^A-Za-z0-9_])return$/) return "return"
    if (word == "," && comma(before) != "") return comma(before)
    if ((word == ";" || word == "{" || word == "}") && before ~ /[A-Za-z0-9_?)"]$/ && is_open(before)) return "bracket"
    if (word == "}" && (before ~ /^[} ]*$/ || before ~ /(^|[^A-Za-z0-9_])let [^;]*$/)) return "closing"
    if (before != "" && before !~ /[)}]$/) return ""
    return is_of_word(right[1]) && word != "fn" && word != "else" ? "semicolon" : ""
}

# What a `,` gives one value too many: a form that takes one, a form that takes two, a pair.
function comma(before) {
    gsub(/"([^"\\]|\\.)*"/, "", before)
    while (gsub(/\([^()]*\)/, "", before)) ;
    if (before ~ /(^|[^A-Za-z0-9_])(ref|get|recv|print|fst|snd) ?\([^(),]*$/) return "pair"
    if (before ~ /(^|[^A-Za-z0-9_])(set|send|pick) ?\([^(),]*,[^(),]*$/) return "two"
    return before ~ /(^|[^A-Za-z0-9_ ]) ?\([^(),]*,[^(),]*$/ ? "three" : ""
}

# Whether a `(` isn't closed in what comes after the last `;`, `{` and `}`.
function is_open(before) {
    gsub(/"([^"\\]|\\.)*"/, "", before)
    sub(/^.*[;{}]/, "", before)
    return gsub(/\(/, "", before) > gsub(/\)/, "", before)
}

# The first bytes of a list as a text, with a `?` for each that isn't of ASCII.
function ascii(list, count,    i, text) {
    for (i = 1; i <= count; i++) text = text (list[i] < 128 ? sprintf("%c", list[i]) : "?")
    return text
}

# The byte that begins the token behind so many bytes from the place on.
function byte_after(skipped,    i) {
    for (i = skipped + 1; i <= rights; i++) {
        if (right[i] == 47 && right[i + 1] == 47) while (i < rights && right[i] != 10) i++
        else if (right[i] > 32) return right[i]
    }
    return 0
}

# Cuts bytes of the list, up to a line feed, into characters: their texts and the cells that they take. Returns how many there are.
function decode(list, from, to, shown, cells,    i, k, more, code, n) {
    for (i = from; i <= to && list[i] != 10; i += more + 1) {
        code = list[i]
        if (code == 13 && (i == to || list[i + 1] == 10)) break
        more = code < 194 ? 0 : code < 224 ? 1 : code < 240 ? 2 : code < 245 ? 3 : 0
        if (more) code -= more == 1 ? 192 : more == 2 ? 224 : 240
        else if (code > 127) code = -1
        shown[++n] = escape(list[i])
        for (k = 1; k <= more; k++) {
            if (i + k > to || list[i + k] < 128 || list[i + k] > 191) {
                code = -1
                more = 0
            } else {
                code = code * 64 + list[i + k] - 128
                shown[n] = shown[n] escape(list[i + k])
            }
        }
        if (code < 32 && code != 9 || code >= 127 && code < 160) shown[n] = REPLACED
        cells[n] = code == 9 ? 8 : is_wide(code) ? 2 : is_joined(code) ? 0 : 1
    }
    return n
}

# Whether a terminal gives the character two cells, as it does to those of East Asia, or none, as to an accent.
function is_wide(code) {
    return code >= 4352 && code <= 4447 || code >= 11904 && code <= 42191 || code >= 44032 && code <= 55203 ||
        code >= 63744 && code <= 64255 || code >= 65072 && code <= 65135 || code >= 65280 && code <= 65376 ||
        code >= 127744 && code <= 129791 || code >= 131072 && code <= 262141
}

function is_joined(code) {
    return code >= 768 && code <= 879 || code >= 8203 && code <= 8207 || code >= 65024 && code <= 65039
}

# The line and, below it, the caret. Of a line that is wider than the terminal, what is round the place.
function line_and_caret(    n, m, from, to, room, i, line, caret) {
    # Of a long line the bytes may begin within a character.
    for (from = 1; left[from] >= 128 && left[from] <= 191; from++) ;
    n = decode(left, from, lefts, before, before_cells)
    m = decode(right, 1, rights, after, after_cells)
    for (i = 1; i <= n; i++) room -= before_cells[i]
    for (i = 1; i <= m; i++) room -= after_cells[i]
    from = 1
    to = m
    if (room + width <= 0) {
        # Two thirds of the room are before the place, if there is as much.
        room = int(width * 2 / 3) - 2
        for (from = n + 1; from > 1 && before_cells[from - 1] <= room; from--) room -= before_cells[from - 1]
        room += width - int(width * 2 / 3) - 2
        for (to = 0; to < m && after_cells[to + 1] <= room; to++) room -= after_cells[to + 1]
    }
    if (from > 1) {
        line = DOTS
        caret = " "
    }
    for (i = from; i <= n; i++) {
        line = line before[i]
        caret = caret (before_cells[i] == 8 ? "\\t" : before_cells[i] == 2 ? WIDE_BLANK : before_cells[i] == 1 ? " " : "")
    }
    for (i = 1; i <= to; i++) line = line after[i]
    return line (to < m ? DOTS : "") "\\n" caret "^\\n"
}
