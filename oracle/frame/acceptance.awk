# Prints the items of lib.rs that page acceptance takes, each whole and as it stands, with its comments and attributes.
# An item ends at the first line that is one closing brace. Fails if it does not find each of them exactly once.
BEGIN {
    wanted["\npub enum AcceptError "]
    wanted["\npub unsafe fn accept_memory\\("]
    wanted["\nfn try_accept_one\\("]
    wanted["\nenum PageLevel "]
    wanted["\nimpl PageLevel "]
    wanted["\nenum TryAcceptResult "]
    wanted["\nimpl From<TdCallError> for AcceptError "]
    # tdcall.rs names it in the answer of another call.
    wanted["\n    pub struct TdAttributes: "]
}
inside == 0 && /^$/ { item = ""; next }
{ item = item "\n" $0 }
/[{]$/ && /^[^ ]/ { inside = 1 }
/^}$/ {
    for (pattern in wanted) {
        if (item ~ pattern) {
            print item
            found[pattern]++
        }
    }
    item = ""
    inside = 0
}
END {
    for (pattern in wanted) {
        if (found[pattern] != 1) {
            print "lib.rs has " found[pattern] + 0 " items of the form " pattern > "/dev/stderr"
            exit 1
        }
    }
}
