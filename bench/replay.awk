# Store mode with one partition and no limit, for a comparison with a script.
BEGIN { stamp = 0 }
/^put / {
    rest = substr($0, 5)
    space = index(rest, " ")
    cells[substr(rest, 1, space - 1)] = substr(rest, space + 1)
    print "put " ++stamp " stored"
    next
}
/^del / {
    key = substr($0, 5)
    print "del " ++stamp (key in cells ? " deleted" : " absent")
    delete cells[key]
    next
}
/^get / {
    key = substr($0, 5)
    print (key in cells) ? "get " stamp " hit " cells[key] : "get " stamp " miss"
    next
}
{ print }
