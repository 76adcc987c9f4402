# What passread tells, from the phrases, and then from lines that have a place, a number, a value and the words, or from a refused sheet's line.
FNR == NR {
    words = ($1 == "sheet") ? 2 : 1
    key = ($1 == "sheet") ? $1 " " $2 : $1
    text = $0
    for (i = 0; i < words; i++) sub(/^[^ ]+ /, "", text)
    phrase[key] = text
    next
}
$1 == "sheet" {
    print $0 " " phrase[$0]
    next
}
{
    place = $1
    number = $2
    value = $3
    text = $0
    for (i = 0; i < 3; i++) sub(/^[^ ]+ /, "", text)
    print place " " text (number == 0 ? " = " value : " refused " number " " phrase[number])
}
