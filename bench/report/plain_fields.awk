# Leaves of a report's lines the fields that baseline.rs prints too, so that it is compared with a program that reports more.
BEGIN {
    split("slot runs points fragments size seqs", names, " ")
    for (place in names) is_plain[names[place]] = 1
}
$1 == "run" || $1 == "total" {
    line = $1
    is_left = 1
    for (place = 2; place <= NF; place++) {
        if ($place !~ /^[0-9]+$/) is_left = $place in is_plain
        if (is_left) line = line " " $place
    }
    $0 = line
}
{ print }
