# How C hands over structs on Arm, where the module says how on x86-64.
# A result of more than 16 bytes: its place comes in a register of its own (sret), and nothing is handed back.
/^define noundef ptr @nyokazerubi_/ {
    sub(/^define noundef ptr/, "define void")
    sub(/\(ptr noundef %a0/, "(ptr noundef sret([1 x i8]) %a0")
    result = 1
}
# One of up to 16 bytes with a double would be an integer and a float register there, and two integer registers here: no call answers one.
/^define [^(]*(double|float)[^(]*@nyokazerubi_/ { print "a result with a float: " $0 > "/dev/stderr"; exit 1 }
/^}/ { result = 0 }
result && /^  ret ptr / { print "  ret void"; next }
# A parameter of more than 16 bytes would be a pointer to it there, and its bytes among the parameters here: no call takes one.
/^define .* byval\(/ { print "a parameter of more than 16 bytes: " $0 > "/dev/stderr"; exit 1 }
{ print }
