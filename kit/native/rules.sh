# To be sourced: what a module is held to before it is compiled for another processor. It stops at the first thing that was not thought of.
# shellcheck shell=bash

look_at_module() { # FILE
    awk -f kit/native/plain.awk "$1" >"$1.plain"
    look_at_head "$1.plain"
    look_at_instructions "$1.plain"
    look_at_functions_for_c "$1"
    look_at_slots "$1"
}

# Outside of functions only these lines are let through, so that nothing is left by which two machines could differ. The module writes the tag
# of an enum as a number of 32 or 64 bits and reads it as one of 8, which wants the lowest byte first; and it loads several numbers at once,
# which wants one of 64 bits at a place that 8 divides, as on x86-64.
look_at_head() { # FILE
    local value='((noundef|zeroext) )*(void|ptr|row|i[0-9]+)( (noundef|zeroext))*' range='i[0-9]+ -?[0-9]+'
    local word='nounwind|nocallback|nocreateundeforpoison|nofree|nosync|speculatable|willreturn|cold|noreturn|memory\([a-z: ]+\)'
    local known='target datalayout = "e-([^"]*-)?i64:64-[^"]*"|target triple = "[^"]*"'
    known+="|define (internal )?$value @(\"[^\"]+\"|[a-z0-9_]+)\\(($value %[a-z0-9.]+(, )?)*\\) #[0-9]+ \\{|\\}|[a-z0-9.]+:( +;.*)?"
    known+='|declare [a-z0-9]+ @llvm\.[a-z]+(\.[pi][0-9]+)*\([^()]*(captures\(none\)[^()]*)*\) #[0-9]+' # none of a processor's own
    known+="|attributes #[0-9]+ = \\{( ($word|noinline|alwaysinline|inlinehint))+ \\}|![0-9]+ = !\\{($range, $range)?\\}"
    if grep -nE '^[^ ]' "$1" | grep -vE "^[0-9]+:($known)\$"; then
        stop 'the module has a line outside of functions that was not thought of'
    fi
}

# A pointer of 32 bits in a slot of 64 is sound while pointers are only stored, loaded, passed on and moved by offsets: never made from
# a number, turned into one or compared. So only these instructions are let through, and none of these words.
look_at_instructions() { # FILE
    local known='alloca|load|store|getelementptr|call|ret|br|switch|unreachable|phi|select|icmp|extractvalue'
    known+='|add|sub|mul|udiv|urem|sdiv|srem|and|or|xor|shl|lshr|ashr|zext|sext|trunc'
    if grep -nE '^  [^ ]' "$1" | grep -vE "^[0-9]+:  (%[^ ]+ = )?(tail )?($known) |^[0-9]+:  (unreachable|ret void)\$|^[0-9]+:  \]\$"; then
        stop 'the module has an instruction that was not thought of'
    fi
    if grep -nE 'icmp [a-z]+ ptr|addrspace|volatile|atomic| asm |<[0-9]+ x |x ptr|^  .*[{}]' "$1"; then
        stop 'the module has what is not sound with pointers of 32 bits, or was not thought of'
    fi
}

# They are those of the header. They take pointers and numbers of 32 and 64 bits and give one of 64, which C passes on every processor as the
# compiler does here; a smaller number, or a structure, need not be.
look_at_functions_for_c() { # FILE
    local known='define noundef i64 @krossvil_[a-z_]+\(((ptr|i32|i64) noundef %[a-z0-9]+(, )?)+\) #[0-9]+ \{'
    if grep -nE '^define ' "$1" | grep -vE "^[0-9]+:(define internal .*|$known)\$"; then
        stop 'a function for C takes or gives something else than pointers and numbers of 32 or 64 bits'
    fi
    if ! diff <(functions | sort) <(sed -n 's/^define noundef i64 @\(krossvil_[a-z_]*\)(.*/\1/p' "$1" | sort); then
        stop 'the functions for C are not those of include/krossvil.h'
    fi
}

# A slot that holds a pointer is loaded and stored as a pointer only, in every function that gets at it: as a number its 64 bits would have
# something else than the pointer in them.
look_at_slots() { # FILE
    awk -f kit/native/slots.awk "$1" || stop 'the module has a slot that holds a pointer here and a number there, or one that cannot be told'
}
