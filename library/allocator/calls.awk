# Prints for each function of bindingclay.h that takes a kernel a line for the macros of bindingclay_allocator.c:
#
#   CALL(TYPE, NAME, (PARAMETER, ..), (ARGUMENT, ..))    or CALL_OF_NOTHING(NAME, ..), if it returns nothing
#
# NAME is that of the function without bindingclay_. Before the line goes what takes a macro of that function away.
/^[a-z][a-z0-9_ ]*[ *]bindingclay_[a-z0-9_]*\(/ && !/^(static|typedef) / {
    declaration = ""
    is_declared = 1
}

is_declared {
    declaration = declaration $0 " "
    if (/;$/) {
        is_declared = 0
        print_call(declaration)
    }
}

function print_call(text,    type, name, parameters, arguments, words, count, i) {
    gsub(/  +/, " ", text)
    match(text, /bindingclay_[a-z0-9_]*\(/)
    type = substr(text, 1, RSTART - 1)
    name = substr(text, RSTART + 12, RLENGTH - 13)
    parameters = substr(text, RSTART + RLENGTH)
    sub(/ $/, "", type)
    sub(/^ /, "", parameters)
    sub(/\) *; *$/, "", parameters)
    if (parameters !~ /(^|, )bindingclay [a-z]/)
        return
    count = split(parameters, words, /, */)
    for (i = 1; i <= count; i++) {
        sub(/^.*[ *]/, "", words[i])
        arguments = arguments (i > 1 ? ", " : "") words[i]
    }
    print "#undef bindingclay_" name
    if (type == "void")
        print "CALL_OF_NOTHING(" name ", (" parameters "), (" arguments "))"
    else
        print "CALL(" type ", " name ", (" parameters "), (" arguments "))"
}
