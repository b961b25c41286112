#!/bin/sh
# Plants faults, one at a time, in a copy of the reference and sees that the
# comparison finds each. faults.sh BUILD LIBRARY
set -u
build=$1
library=$2
bad=0
mkdir -p "$build"
${CC:-gcc} -std=c11 -O2 -ffp-contract=off -w -c -o "$build/fault_compare.o" compare.c || exit 1

build_with() {
    ${CC:-gcc} -std=c11 -O2 -ffp-contract=off -w -I. -o "$build/fault" "$build/fault_compare.o" "$1" "$library" -lm || exit 1
}

# Without a fault nothing is found: else a fault below might seem to be.
build_with reference.c
if ! "$build/fault" 1 100000 >"$build/fault.txt" 2>&1; then
    tail -n 3 "$build/fault.txt"
    echo "found without a fault"
    exit 1
fi

# name, the text to be replaced, the text put in its place (sed)
plant() {
    copy=$build/fault_reference.c
    sed "$2" reference.c >"$copy"
    if cmp -s reference.c "$copy"; then
        echo "$1: the fault does not apply"
        bad=1
        return
    fi
    build_with "$copy"
    "$build/fault" 1 100000 >"$build/fault.txt" 2>&1
    case $? in
    0 | 2) # 2: no difference, and something not met
        echo "$1: NOT FOUND"
        bad=1
        ;;
    *)
        echo "$1: found: $(grep -a -m 1 DIFFERENCE "$build/fault.txt" || echo "the copy stopped by itself")"
        ;;
    esac
}

plant "wrong place of a fault in the heap" 's/\*place = at + 1;/*place = at;/'
# Order 1, the word that 11 names: the mark and the walk,
plant "a mark of length + 1 let pass" 's/mark > heap_len)/mark > heap_len + 1)/
    s/^    if (walk_fault(/    if (mark > heap_len)\
        mark = heap_len;\
&/'
plant "the size word tested before the header" 's/^        if (bad_header(heap, mark, at)) {/\
        if (bad_header(heap, mark, at) \&\& (at + 1 >= mark || !bad_size(heap, mark, at))) {/'
plant "a header at mark - 1 named by its size word" 's/^        if (bad_header(heap, mark, at)) {/&\
            at += heap[at] >> 24 == 1;/'
plant "the second bad header instead of the first" 's/^        if (bad_header(heap, mark, at)) {/&\
            size_t next = at + 1 < mark \&\& !bad_size(heap, mark, at) ? at + heap[at + 1] : mark;\
            if (next < mark \&\& bad_header(heap, mark, next))\
                at = next;/'
plant "the root judged before the walk" 's/^    if (walk_fault(/    if (heap[1] >= mark) {\
        *place = 1;\
        return true;\
    }\
&/'
plant "pointers judged before a later fault of the walk" 's/^    if (walk_fault(.*/&\
    {\
        size_t low = lowest_bad_pointer(heap, heap_len, *place - 1, objects);\
        if (low > 1 \&\& low < *place)\
            *place = low;/
    /^    if (walk_fault(/,/return true;/s/return true;/&\
    }/'
# and, after a clean walk, the one minimum.
plant "free words judged before pointers" \
    's/\*place = pointer < free_word ?/*place = pointer < free_word \&\& (pointer == 1 || free_word == heap_len) ?/'
plant "the last bad pointer instead of the first" 's/^    if (!is_pointer(heap\[1\]/    size_t last = heap_len;\
&/
    s/^                return i;/                last = i;/
    s/^    return heap_len;/    return last;/'
plant "the root judged after the other pointers" 's/^        return 1;/        (void)objects;/
    s/^    return heap_len;/    return is_pointer(heap[1], objects, heap_len) ? heap_len : 1;/'
plant "the root judged after the free words" \
    's/\*place = pointer < free_word ?/*place = pointer < free_word \&\& (pointer > 1 || free_word == heap_len) ?/'
plant "the root not judged" 's/^        return 1;/        (void)objects;/'
plant "the heap's last free word not judged" \
    's/while (i < heap_len \&\& heap\[i\] == 0)/while (i < heap_len \&\& (heap[i] == 0 || i + 1 == heap_len))/'
# Order 2, making a vector: the popping order, 6 before 4, the fit, the object made,
plant "80 pops the length before the value" 's/PLAIN, value, length, bound)/PLAIN, length, value, bound)/'
plant "80 pops the bound before the length" 's/PLAIN, value, length, bound)/PLAIN, value, bound, length)/'
plant "81 pops the bound before the length" 's/POINTERS, value, length, bound)/POINTERS, value, bound, length)/'
plant "a negative length raises 4" '/^static uint32_t make_vector/,/^}/s/REF_VECTOR_FAULT/REF_HEAP_FULL/'
plant "a full heap raises 4 before a negative length 6" 's/^    if (whole(length) < 0)/    if (heap_len - at < 3)\
        return REF_HEAP_FULL;\
&/'
plant "length 0 raises 6" 's/^    if (whole(length) < 0)/    if (whole(length) <= 0)/'
plant "an exact fit of a vector raises 4" 's/heap_len - at < 3 + (size_t)length/heap_len - at <= 3 + (size_t)length/'
plant "the room for a vector reckoned in 32 bits" \
    's/heap_len - at < 3 + (size_t)length/(int64_t)(heap_len - at) < whole(3 + length)/'
plant "bound + length past the range raises 6" \
    's/^    if (whole(length) < 0)/    if (whole(length) < 0 || (int64_t)whole(bound) + length > INT32_MAX)/'
plant "a header written before 4" 's/^    if (heap_len - at < 3 + (size_t)length)/    if (at < heap_len)\
        heap[at] = kind << 24;\
&/'
plant "a nil value of 81 raises 2" '/case PVECTOR: {/,/break;/s/if (exception != 0)/exception = exception == 0 \&\& value == 0 ? 2 : exception;\
            &/'
plant "the last element not filled" 's/i < first + length/i + 1 < first + length/'
plant "the first element not filled" 's/size_t i = first;/size_t i = first + 1;/'
plant "a pointer vector's bound before its elements" 's/^    heap\[at + 2 + pointers\] = bound;/    heap[at + 2] = bound;/
    s/^    size_t first = .*/    size_t first = at + 3;/'
plant "a pointer vector's elements not counted in its header" 's/^    heap\[at\] = kind << 24 | pointers;/    heap[at] = kind << 24;/'
plant "a new vector's bound beyond the mark" 's/heap\[0\] = (uint32_t)at + 3 + length;/heap[0] = (uint32_t)at + 2 + length;/'
# an element: the popping order, nil before 6, the kind, the index,
plant "84 pops the value before the index" '/case WELEMENTSET: {/,/break;/{
    s/mt - 1u/mt - 2u/
    s/^            pop(main_stack, main_len, &mt);/            uint32_t value = pop(main_stack, main_len, \&mt);/
    s/put(heap, heap_len, at, pop(main_stack, main_len, &mt));/pop(main_stack, main_len, \&mt);\
            put(heap, heap_len, at, value);/
    }'
plant "85 pops the value before the vector" '/case PELEMENTSET: {/,/break;/{
    s/pt - 1u/pt - 2u/
    s/^            pop(ptr_stack, ptr_len, &pt);/            uint32_t value = pop(ptr_stack, ptr_len, \&pt);/
    s/put(heap, heap_len, at, pop(ptr_stack, ptr_len, &pt));/pop(ptr_stack, ptr_len, \&pt);\
            put(heap, heap_len, at, value);/
    }'
plant "a nil value of 85 raises 2" '/case PELEMENTSET: {/,/break;/s/if (exception != 0)/if (ptr_stack[pt - 2] == 0)\
                exception = REF_NIL_OBJECT;\
            &/'
plant "a nil vector raises 6" '/^static inline uint32_t find_element/,/^}/s/vector == 0/vector == 0 \&\& 0/'
plant "nil tested after the index" '/^static inline uint32_t find_element/,/^}/s/if (vector == 0)/if (vector == 0 \&\& whole(index) < 0)/'
plant "82 reads a pointer vector" '/case WELEMENT: {/,/break;/s/PLAIN/PLAIN + (heap[ptr_stack[pt - 1]] >> 24 == POINTERS)/'
plant "83 reads a plain vector" '/case PELEMENT: {/,/break;/s/POINTERS/POINTERS - (heap[ptr_stack[pt - 1]] >> 24 == PLAIN)/'
plant "84 writes a pointer vector" '/case WELEMENTSET: {/,/break;/s/PLAIN/PLAIN + (heap[ptr_stack[pt - 1]] >> 24 == POINTERS)/'
plant "85 writes a plain vector" '/case PELEMENTSET: {/,/break;/s/POINTERS/POINTERS - (heap[ptr_stack[pt - 1]] >> 24 == PLAIN)/'
plant "a view taken for a vector" 's/if (header >> 24 != kind)/if (header >> 24 != kind \&\& (header >> 24 != VIEW || heap[vector + 1] < 4))/'
plant "an index one below the bound let pass" 's/past < 0 || past >= length/past < -1 || past >= length/'
plant "an index one past the last element let pass" 's/past < 0 || past >= length/past < 0 || past > length/'
plant "the first element out of reach" 's/past < 0 || past >= length/past < 1 || past >= length/'
plant "the last element out of reach" 's/past < 0 || past >= length/past < 0 || past + 1 >= length/'
plant "the index less the bound wraps" 's/int64_t past = .*/int64_t past = whole(index - bound);/'
plant "the bound taken as unsigned" 's/int64_t past = .*/int64_t past = (int64_t)whole(index) - bound;/'
# 30 to 33 on vectors,
plant "32 sets a plain vector's bound" 's/header >> 24 != VIEW \&\& s ==/header >> 24 == POINTERS \&\& s ==/'
plant "32 sets a pointer vector's bound" 's/header >> 24 != VIEW \&\& s ==/header >> 24 == PLAIN \&\& s ==/'
plant "32 barred on an element" 's/header >> 24 != VIEW \&\& s ==/header >> 24 != VIEW \&\& s >=/'
plant "32 barred on a view's first plain word" 's/header >> 24 != VIEW \&\& s ==/s ==/'
plant "30 barred on a bound" 's/(file\[place\] == WSET \&\& is_bound(header, s))/is_bound(header, s)/'
plant "33 barred on an element" \
    's/s < 2 || s >= 2 + pointers)/s < 2 || s >= 2 + pointers || (file[place] == PSET \&\& heap[object] >> 24 == POINTERS))/'
plant "31 barred on an element" \
    's/s < 2 || s >= 2 + pointers)/s < 2 || s >= 2 + pointers || (file[place] == PFIELD \&\& heap[object] >> 24 == POINTERS))/'
# the words that count as popped,
plant "80 counted as popping two words" '/case WVECTOR: \/\*/,/break;/s/main_pop = 3/main_pop = 2/'
plant "the value of 81 not counted as popped" '/case PVECTOR: \/\*/,/break;/s/ptr_p[a-z]* = 1/ptr_pop = 0/'
plant "the index of 82 not counted as popped" '/case WELEMENT: \/\*/,/break;/s/main_p[a-z]* = 1/main_pop = 0/'
plant "the vector of 83 not counted as popped" '/case PELEMENT:$/,/break;/s/ptr_p[a-z]* = 1/ptr_pop = 0/'
plant "the value of 84 not counted as popped" '/case WELEMENTSET: \/\*/,/break;/s/main_pop = 2/main_pop = 1/'
plant "the value of 85 not counted as popped" '/case PELEMENTSET: \/\*/,/break;/s/ptr_pop = 2/ptr_pop = 1/'
# and the heap's audit.
plant "a plain vector with pointer words let pass" 's/(kind == PLAIN \&\& pointers > 0)/0/'
plant "pointer words of a plain vector named by its size word" 's/(kind == PLAIN \&\& pointers > 0)/0/
    s/(kind == PLAIN \&\& size < 3)/(kind == PLAIN \&\& (size < 3 || pointers > 0))/'
plant "the same only if the size is bad too" 's/^        if (bad_header(heap, mark, at)) {/\
        if (bad_header(heap, mark, at)\
            \&\& (heap[at] >> 24 != PLAIN || at + 1 >= mark || !bad_size(heap, mark, at))) {/'
plant "a plain vector of size 2 let pass" 's/(kind == PLAIN \&\& size < 3)/0/'
plant "a plain vector of size 2 named by its header" 's/(kind == PLAIN \&\& pointers > 0)/(kind == PLAIN \&\& (pointers > 0 || (at + 1 < mark \&\& heap[at + 1] == 2)))/'
plant "a plain vector of length 0 refused" 's/(kind == PLAIN \&\& size < 3)/(kind == PLAIN \&\& size < 4)/'
plant "a pointer vector's size not tested" 's/(kind == POINTERS \&\& size != 3 + pointers)/0/'
plant "a pointer vector a word short let pass" 's/size != 3 + pointers/size > 3 + pointers/'
plant "a pointer vector a word long let pass" 's/size != 3 + pointers/size < 3 + pointers/'
plant "a pointer vector's size named by its header" 's/(kind == PLAIN \&\& pointers > 0)/(kind == PLAIN \&\& pointers > 0) || (kind == POINTERS \&\& at + 1 < mark \&\& heap[at + 1] != 3 + pointers)/'
plant "kind 4 let pass" 's/kind > POINTERS/kind > 4/'
plant "a pointer vector's elements not judged" \
    '/^        size_t plain = /s/(heap\[at\] \& 0xffffffu)/(heap[at] >> 24 == POINTERS ? 0 : heap[at] \& 0xffffffu)/'
plant "a pointer vector's bound judged as a pointer" \
    '/^        size_t plain = /s/(heap\[at\] \& 0xffffffu)/& + (heap[at] >> 24 == POINTERS)/'
# Order 3, the state belongs to its file. The tests' order: in run,
run13='^    if (regs_len != REG_BYTES || sums_differ(regs, file, file_len))'
start13='^    if (regs_len != REG_BYTES)$'
lengths='lengths_fault(file, main_len, ptr_len, ctl_len, heap_len)'
plant "run: 13 after 10" "s/$run13/    if ($lengths)\\
        return refused(10, 0);\\
&/"
plant "run: 13 after 11" "s/$run13/    if (!$lengths \\&\\& heap_fault(heap, heap_len, objects, \\&fault))\\
        return refused(11, fault);\\
&/"
plant "run: 13 after 12" "s/$run13/    if (regs_len == REG_BYTES \\&\\& !$lengths \\&\\& !heap_fault(heap, heap_len, objects, \\&fault)) {\\
        registers first = read_registers(regs);\\
        if (!state_sound(file, file_len, map, \\&lay, main_stack, main_len, ptr_stack, ptr_len,\\
                         ctl_stack, ctl_len, objects, heap_len, \\&first))\\
            return refused(12, 0);\\
    }\\
&/"
plant "run: 13 before 9" '/^ref_reply ref_run/,/^}/s/^    if (checked.kind != REF_PASSED)/    if (checked.number == 9 \&\& (regs_len != REG_BYTES || sums_differ(regs, file, file_len)))\
        return refused(13, 0);\
&/'
plant "run: 13 before 1" '/^ref_reply ref_run/,/^}/s/^    layout lay;/    if (regs_len != REG_BYTES || sums_differ(regs, file, file_len))\
        return refused(13, 0);\
&/'
# in start,
plant "start: 13 after 10" "s/$start13/    if ($lengths)\\
        return refused(10, 0);\\
&/"
plant "start: 13 after 11" "s/$start13/    if (!$lengths \\&\\& heap_fault(heap, heap_len, objects, \\&place))\\
        return refused(11, place);\\
&/"
plant "start: 13 before 9" '/^ref_reply ref_start/,/^}/s/^    if (checked.kind != REF_PASSED)/    if (checked.number == 9 \&\& regs_len != REG_BYTES)\
        return refused(13, 0);\
&/'
# the length,
plant "run: 12 for the length" "s/$run13/    if (regs_len != REG_BYTES)\\
        return refused(12, 0);\\
&/"
plant "run: 12 for the length, after 11" "s/$run13/    if (regs_len == REG_BYTES \\&\\& sums_differ(regs, file, file_len))/
    s/^    registers reg = read_registers(regs);/    if (regs_len != REG_BYTES)\\
        return refused(12, 0);\\
&/"
plant "start: 12 for the length" "/$start13/{n;s/13/12/;}"
plant "run: 28 bytes let pass" "s/$run13/    if (regs_len != 28 \\&\\& (regs_len != REG_BYTES || sums_differ(regs, file, file_len)))/"
plant "start: 28 bytes let pass" "s/$start13/    if (regs_len != REG_BYTES \\&\\& regs_len != 28)/
    s/^    write_sums(regs, file, file_len);/    if (regs_len == REG_BYTES)\\
        write_sums(regs, file, file_len);/"
plant "run: more than 36 bytes let pass" "s/$run13/    if (regs_len < REG_BYTES || sums_differ(regs, file, file_len))/"
plant "start: more than 36 bytes let pass" "s/$start13/    if (regs_len < REG_BYTES)/"
plant "run: place 1" "/$run13/{n;s/13, 0/13, 1/;}"
plant "start: place 1" "/$start13/{n;s/13, 0/13, 1/;}"
# what is compared, and when,
plant "only the first sum compared" 's/^        || word_of_bytes(regs + SUM_OF_SUMS_AT) != sums.sum_of_sums;/        ;/'
plant "only the second sum compared" 's/return word_of_bytes(regs + SUM_AT) != sums.sum$/return 0/'
plant "13 only if both sums differ" 's/|| word_of_bytes(regs + SUM_OF_SUMS_AT)/\&\& word_of_bytes(regs + SUM_OF_SUMS_AT)/'
plant "the first sum compared in 16 bits" 's/word_of_bytes(regs + SUM_AT) != sums.sum$/(uint16_t)(word_of_bytes(regs + SUM_AT) ^ sums.sum) != 0/'
plant "the second sum compared in 16 bits" 's/word_of_bytes(regs + SUM_OF_SUMS_AT) != sums.sum_of_sums/(uint16_t)(word_of_bytes(regs + SUM_OF_SUMS_AT) ^ sums.sum_of_sums) != 0/'
plant "no sum compared when finished" "s/$run13/    if (regs_len != REG_BYTES || (regs[27] != 1 \\&\\& sums_differ(regs, file, file_len)))/"
plant "no sum compared at budget 0" "s/$run13/    if (regs_len != REG_BYTES || (budget != 0 \\&\\& sums_differ(regs, file, file_len)))/"
plant "start compares the sums" "s/$start13/    if (regs_len != REG_BYTES || sums_differ(regs, file, file_len))/"
# the sums themselves,
sums='^    ref_sums sums = ref_sums_of(file, file_len);'
plant "both sums without the last byte" 's/ref_sums_of(file, file_len)/ref_sums_of(file, file_len - 1)/'
plant "the second sum without the last sum" "s/$sums/&\\
    sums.sum_of_sums -= sums.sum;/"
plant "the second sum without the first sum" "s/$sums/&\\
    sums.sum_of_sums -= file[0];/"
plant "the last sum twice in the second sum" "s/$sums/&\\
    sums.sum_of_sums += sums.sum;/"
plant "bytes taken as signed" "s/$sums/&\\
    for (size_t i = 0; i < file_len; i++)\\
        sums.sum -= file[i] > 127 ? 256 : 0;/"
plant "the first sum in 16 bits" "s/$sums/&\\
    sums.sum \\&= 65535;/"
plant "the second sum in 24 bits" "s/$sums/&\\
    sums.sum_of_sums \\&= 16777215;/"
plant "the sums' least significant byte first" "s/$sums/&\\
    sums.sum = __builtin_bswap32(sums.sum);\\
    sums.sum_of_sums = __builtin_bswap32(sums.sum_of_sums);/"
# and what is written.
plant "start does not write the sums" 's/^    write_sums(regs, file, file_len);//'
plant "start does not write the second sum" 's/^    bytes_of_word(regs + SUM_OF_SUMS_AT, sums.sum_of_sums);//'
plant "start writes the sums exchanged" '/^static void write_sums/,/^}/{
    s/sums\.sum_of_sums/sums.first/
    s/sums\.sum)/sums.sum_of_sums)/
    s/sums\.first/sums.sum/
    }'
plant "a start refused as 10 writes the sums" "/$start13/{n;s/\$/\\
    write_sums(regs, file, file_len);/;}"
plant "run clears the sums" 's/^    write_registers(regs, &reg); .*/&\
    memset(regs + SUM_AT, 0, 8);/'
plant "run clears the sums when it finishes" 's/^    write_registers(regs, &reg); .*/&\
    if (reg.state == 1)\
        memset(regs + SUM_AT, 0, 8);/'
plant "run clears the sums when nothing catches" 's/^    write_registers(regs, &reg); .*/&\
    if (ending.kind == REF_UNCAUGHT)\
        memset(regs + SUM_AT, 0, 8);/'
plant "13 writes the file's sums" "s/$run13/    if (regs_len == REG_BYTES \\&\\& sums_differ(regs, file, file_len)) {\\
        write_sums(regs, file, file_len);\\
        return refused(13, 0);\\
    }\\
&/"
plant "run: 13 fills the map" "s/$run13/&\\
        clear_map(map, file_len);\\
&/"
plant "start: 13 fills the map" "s/$start13/&\\
        clear_map(map, file_len);\\
&/"
old='static uint16_t old[3 * FILE_MAX];\
    size_t kept = map_len < 3 * FILE_MAX ? map_len : 3 * FILE_MAX;\
    memcpy(old, map, 2 * kept);\
'
plant "run: 13 leaves the old map" "/^ref_reply ref_run/,/^}/s/^    layout lay;/    $old&/
    s/$run13/&\\
        memcpy(map, old, 2 * kept);\\
&/"
plant "start: 13 leaves the old map" "/^ref_reply ref_start/,/^}/s/^    layout lay;/    $old&/
    s/$start13/&\\
        memcpy(map, old, 2 * kept);\\
&/"
# Order 4, reals. The words of one,
result='/case RPLUS: case RTIMES: case RMINUS: case RDIV: {/,/break;/'
less='/case RLESS: {/,/break;/'
point='/case SCALE: {/,/break;/'
literal='/case LLREAL: \/\*/,/break;/'
high='s/get(list, len, at) << 32 | get(list, len, at + 1)/get(list, len, at + 1) << 32 | get(list, len, at)/'
low='s/put(list, len, at, (uint32_t)(bits >> 32))/put(list, len, at + 1, (uint32_t)(bits >> 32))/
    s/put(list, len, at + 1, (uint32_t)bits)/put(list, len, at, (uint32_t)bits)/'
plant "a real read low word first" "$high"
plant "a real written low word first" "$low"
plant "a real read and written low word first" "$high
    $low"
plant "the low word read as signed" 's/<< 32 | get(list, len, at + 1)/<< 32 | (uint64_t)(int64_t)whole(get(list, len, at + 1))/'
# 53,
plant "53 pushes its low word first" "$literal{
    s/place + 1)/place + 11)/
    s/place + 3)/place + 13)/
    s/place + 5)/place + 1)/
    s/place + 7)/place + 3)/
    s/place + 11)/place + 5)/
    s/place + 13)/place + 7)/
    }"
bits='uint64_t bits = (uint64_t)main_stack[mt - 2] << 32 | main_stack[mt - 1];\
            '
after53="$literal"'s/^            place += 9;/            {\
            '"$bits"
plant "53's bytes lowest first" "$after53"'put_bits(main_stack, main_len, mt - 2, __builtin_bswap64(bits));\
            }\
&/'
plant "53 raises 1 for what is not finite" "$literal"'s/push(main_stack, main_len, &mt,/if ((operand_at(file, file_len, place + 1) \& 0x7ff0u) == 0x7ff0u) {\
                exception = REF_OUT_OF_RANGE;\
                goto raise;\
            }\
            &/'
plant "53 loses a NaN's payload" "$after53"'if (not_finite(bits) \&\& bits << 12 != 0)\
                put_bits(main_stack, main_len, mt - 2, 0x7ff8000000000000u);\
            }\
&/'
plant "53 makes a signalling NaN quiet" "$after53"'if (not_finite(bits) \&\& bits << 12 != 0)\
                put_bits(main_stack, main_len, mt - 2, bits | 1ull << 51);\
            }\
&/'
plant "53 loses a NaN's sign" "$after53"'if (not_finite(bits) \&\& bits << 12 != 0)\
                put_bits(main_stack, main_len, mt - 2, bits << 1 >> 1);\
            }\
&/'
plant "53 pushes -0 as 0" "$after53"'if (bits == 1ull << 63)\
                put_bits(main_stack, main_len, mt - 2, 0);\
            }\
&/'
plant "53 pushes a subnormal real as 0" "$after53"'if (bits << 1 >> 53 == 0)\
                put_bits(main_stack, main_len, mt - 2, bits >> 63 << 63);\
            }\
&/'
# 150 to 153: which is A, the rounding,
plant "152: B - A" 's/bits_of(a - b)/bits_of(b - a)/'
plant "153: B by A" 's/bits_of(a \/ b)/bits_of(b \/ a)/'
for op in '150 +' '151 \*' '152 -' '153 \/'; do
    code=${op% *}
    op=${op#* }
    plant "$code in single precision" "s/bits_of(a $op b)/bits_of((float)(a $op b))/"
    plant "$code of operands in single precision" "s/bits_of(a $op b)/bits_of((float)a $op (float)b)/"
    plant "$code rounded twice" "s/bits_of(a $op b)/bits_of((double)((long double)a $op b))/"
    plant "$code: subnormal results as 0" "s/bits_of(a $op b)/bits_of(__builtin_fabs(a $op b) < 0x1p-1022 ? (a $op b) * 0.0 : a $op b)/"
    plant "$code: -0 as 0" "s/bits_of(a $op b)/bits_of((a $op b) + 0.0)/"
    plant "$code: no test of the result" "$result s/if (not_finite(c))/if (not_finite(c) \\&\\& file[place] != $code)/"
    plant "$code: subnormal results raise 1" "$result s/if (not_finite(c))/if (not_finite(c) || (file[place] == $code \\&\\& c << 1 >> 53 == 0 \\&\\& c << 1 != 0))/"
done
plant "subnormal operands as 0" '/^static inline double real_at/,/^}/s/^    return real;/    return __builtin_fabs(real) < 0x1p-1022 ? real * 0.0 : real;/'
# what is not finite,
plant "no test of 150 to 153" "$result s/if (not_finite(c))/if (0)/"
plant "infinities let pass" '/^static inline bool not_finite/,/^}/s/== 0x7ffu;/== 0x7ffu \&\& bits << 12 != 0;/'
plant "NaNs let pass" '/^static inline bool not_finite/,/^}/s/== 0x7ffu;/== 0x7ffu \&\& bits << 12 == 0;/'
plant "negative infinities let pass" '/^static inline bool not_finite/,/^}/s/bits >> 52 & 0x7ffu/bits >> 52/'
plant "the largest binade refused" '/^static inline bool not_finite/,/^}/s/== 0x7ffu;/>= 0x7feu;/'
plant "B tested, too" "$result s/if (not_finite(c))/if (not_finite(c) || not_finite(bits_of(b)))/"
plant "0 by B raises 1" "$result s/if (not_finite(c))/if (not_finite(c) || (file[place] == RDIV \\&\\& a == 0))/"
plant "150 to 153 raise 2" "$result s/REF_OUT_OF_RANGE/REF_NIL_OBJECT/"
plant "150 to 153 write before they raise" "$result s/if (not_finite(c))/put_bits(main_stack, main_len, mt - 4u, c);\\
            &/"
plant "150 to 153 pop before they raise" "$result s/if (not_finite(c)) {/&\\
                cut(main_stack, main_len, \\&mt, mt - 2u);/"
plant "150 to 153 do not zero B" "$result s/cut(main_stack, main_len, &mt, mt - 2u);/mt -= 2;/"
# 155,
plant "155: B less than A" "$less s/a < b/b < a/"
plant "155: less or equal" "$less s/a < b/a <= b/"
plant "155: not greater or equal" "$less s/a < b/!(a >= b)/"
plant "155: 1 if A is a NaN" "$less s/a < b/a < b || a != a/"
plant "155: 1 if B is a NaN" "$less s/a < b/a < b || b != b/"
plant "155: -0 less than 0" "$less s/a < b/a < b || (a == b \\&\\& bits_of(a) > bits_of(b))/"
plant "155: reals compared as whole numbers" "$less s/a < b/(int64_t)bits_of(a) < (int64_t)bits_of(b)/"
plant "155: the high words alone compared" "$less s/a < b/a < b \\&\\& bits_of(a) >> 32 != bits_of(b) >> 32/"
plant "155 in single precision" "$less s/a < b/(float)a < (float)b/"
plant "155 raises 1 for a NaN" "$less s/cut(main_stack/if (a != a || b != b) {\\
                exception = REF_OUT_OF_RANGE;\\
                goto raise;\\
            }\\
            &/"
plant "155 raises 1 for an infinity" "$less s/cut(main_stack/if (a - a != 0 \\&\\& a == a) {\\
                exception = REF_OUT_OF_RANGE;\\
                goto raise;\\
            }\\
            &/"
plant "155 pushes -1" "$less s/a < b/0u - (a < b)/"
plant "155 does not zero what it pops" "$less s/cut(main_stack, main_len, &mt, mt - 3u);/mt -= 3;/"
# 156: the two roundings,
fused='s/^static inline uint64_t scaled_and_shifted/static inline uint64_t fused(double coordinate, double scale, double shift)\
{\
    return bits_of(__builtin_fma(coordinate, scale, shift));\
}\
\
&/'
plant "156 fused across" "$fused
    s/across = scaled_and_shifted/across = fused/"
plant "156 fused along" "$fused
    s/along = scaled_and_shifted/along = fused/"
plant "156: the product not rounded to a real" 's/^    double product = coordinate \* scale;/    long double product = (long double)coordinate * scale;/'
plant "156: the product in single precision" 's/^    double product = coordinate \* scale;/    float product = (float)(coordinate * scale);/'
plant "156: the sum in single precision" 's/bits_of(product + shift)/bits_of((float)(product + shift))/'
plant "156: shifted before scaled" 's/bits_of(product + shift)/bits_of((coordinate + shift) * scale)/'
plant "156: not shifted" 's/bits_of(product + shift)/bits_of(product)/'
plant "156: the shift taken away" 's/bits_of(product + shift)/bits_of(product - shift)/'
plant "156: the shift scaled, too" 's/bits_of(product + shift)/bits_of(product + shift * scale)/'
plant "156: subnormal products as 0" 's/bits_of(product + shift)/bits_of((__builtin_fabs(product) < 0x1p-1022 ? 0 : product) + shift)/'
plant "156: -0 as 0" 's/bits_of(product + shift)/bits_of(product + shift + 0.0)/'
# where its operands lie,
plant "156: the scale at the bottom" "$point{
    s/mt - 2u);/mt - 1u);/
    s/mt - 4u)/mt - 2u)/
    s/mt - 6u)/mt - 4u)/
    s/mt - 8u)/mt - 6u)/
    s/mt - 10u)/mt - 8u)/
    s/scale = real_at(main_stack, main_len, mt - 1u)/scale = real_at(main_stack, main_len, mt - 10u)/
    s/\\&mt, mt - 4u)/\\&mt, mt - 6u)/
    s/mt - 2u, across/mt - 4u, across/
    s/mt - 1u, along/mt - 2u, along/
    }"
plant "156: the shift under the point" "$point{
    s/main_len, mt - 10u), scale/main_len, mt - 16u), scale/
    s/main_len, mt - 6u));/main_len, mt - 10u));/
    s/mt - 16u/mt - 6u/
    s/main_len, mt - 8u), scale/main_len, mt - 14u), scale/
    s/main_len, mt - 4u));/main_len, mt - 8u));/
    s/mt - 14u/mt - 4u/
    }"
plant "156: the point's along below its across" "$point{
    s/mt - 10u/mt - 18u/
    s/mt - 8u/mt - 10u/
    s/mt - 18u/mt - 8u/
    }"
plant "156: the shift's along below its across" "$point{
    s/main_len, mt - 6u));/main_len, mt - 14u));/
    s/main_len, mt - 4u));/main_len, mt - 6u));/
    s/mt - 14u/mt - 4u/
    }"
plant "156: across and along pushed in the other order" "$point{
    s/mt - 4u, across/mt - 2u, across/
    s/mt - 2u, along/mt - 4u, along/
    }"
# the tests of its results, what it leaves,
plant "156: no test of its results" "$point s/if (not_finite(across) || not_finite(along))/if (0)/"
plant "156: across alone tested" "$point s/if (not_finite(across) || not_finite(along))/if (not_finite(across))/"
plant "156: along alone tested" "$point s/if (not_finite(across) || not_finite(along))/if (not_finite(along))/"
plant "156 raises only if neither is finite" "$point s/not_finite(across) || not_finite(along)/not_finite(across) \\&\\& not_finite(along)/"
plant "156 raises 2" "$point s/REF_OUT_OF_RANGE/REF_NIL_OBJECT/"
plant "156 writes across before it tests along" "$point s/if (not_finite(across)/if (!not_finite(across))\\
                put_bits(main_stack, main_len, mt - 10u, across);\\
            &/"
plant "156 does not zero what it pops" "$point s/cut(main_stack, main_len, &mt, mt - 6u);/mt -= 6;/"
# and the checker.
for name in 150:RPLUS 151:RTIMES 152:RMINUS 153:RDIV; do
    code=${name%:*}
    effect='/case RPLUS: case RTIMES: case RMINUS: case RDIV:$/,/break;/'
    plant "$code counted as popping three words" "$effect s/main_pop = 4/main_pop = file[at] == ${name#*:} ? 3 : 4/"
    plant "$code counted as popping five words" "$effect s/main_pop = 4/main_pop = file[at] == ${name#*:} ? 5 : 4/"
    plant "$code counted as pushing one word" "$effect s/main_push = 2/main_push = file[at] == ${name#*:} ? 1 : 2/"
    plant "$code counted as pushing three words" "$effect s/main_push = 2/main_push = file[at] == ${name#*:} ? 3 : 2/"
done
plant "155 counted as popping three words" '/case RLESS:$/,/break;/s/main_pop = 4/main_pop = 3/'
plant "155 counted as popping five words" '/case RLESS:$/,/break;/s/main_pop = 4/main_pop = 5/'
plant "155 counted as pushing no word" '/case RLESS:$/,/break;/s/main_push = 1/main_push = 0/'
plant "155 counted as pushing two words" '/case RLESS:$/,/break;/s/main_push = 1/main_push = 2/'
plant "156 counted as popping nine words" '/case SCALE: \/\*/,/break;/s/main_pop = 10/main_pop = 9/'
plant "156 counted as popping eleven words" '/case SCALE: \/\*/,/break;/s/main_pop = 10/main_pop = 11/'
plant "156 counted as pushing three words" '/case SCALE: \/\*/,/break;/s/main_push = 4/main_push = 3/'
plant "156 counted as pushing five words" '/case SCALE: \/\*/,/break;/s/main_push = 4/main_push = 5/'
plant "156 counted as popping a pointer" '/case SCALE: \/\*/,/break;/s/e.main_push = 4;/& e.ptr_pop = 1;/'
plant "53 counted as pushing one word" '/case LLREAL: \/\*/,/break;/s/main_push = 2/main_push = 1/'
plant "53 counted as pushing three words" '/case LLREAL: \/\*/,/break;/s/main_push = 2/main_push = 3/'
plant "x not tested at 53" 's/if (m_after > x ||/if ((m_after > x \&\& kind != LLREAL) ||/'
plant "x tested at 53 for one word" 's/if (m_after > x ||/if (m_after > x + (kind == LLREAL) ||/'
plant "reals popped from below a handler's floor" 's/if (m < floor_m + e.main_pop/if (m + (kind >= RPLUS \&\& kind <= SCALE \&\& floor_m > 0) < floor_m + e.main_pop/'
plant "reals that lie on a handler's floor refused" 's/if (m < floor_m + e.main_pop/if (m < floor_m + e.main_pop + (kind >= RPLUS \&\& kind <= SCALE \&\& handler != NONE)/'
plant "53 with a body of seven bytes" 's/\[LLREAL\] = 9/[LLREAL] = 8/
    s/place += 9;/place += 8;/'
plant "53 with a body of nine bytes" 's/\[LLREAL\] = 9/[LLREAL] = 10/
    s/place += 9;/place += 10;/'
plant "53 that wants one byte less at the file's end" 's/if (size == 0 || size > len - at/if (size == 0 || size - (file[at] == LLREAL) > len - at/'
plant "a jump into the body of 53 let pass" 's/^            lay->owner\[at\] = (uint8_t)(lay->procs - 1);/&\
            for (size_t i = at + 1; file[at] == LLREAL \&\& i < next; i++)\
                lay->owner[i] = (uint8_t)(lay->procs - 1);/'
plant "154 known" 's/^    \[SCALE\] = 1,/& [154] = 1,/'
plant "155 unknown" 's/\[RLESS\] = 1,//'
# The rest.
plant "wrong place of an uncaught exception" 's/REF_UNCAUGHT, exception, place, steps/REF_UNCAUGHT, exception, place + 1, steps/'
plant "a popped word not zeroed" 's/^    list\[\*top\] = 0;/    (void)list;/'
plant "finished one step short" 's/REF_FINISHED, 0, 0, steps)/REF_FINISHED, 0, 0, steps - 1)/'
plant "a refused file's map not filled again" 's/^                clear_map(map, len);//'
plant "the first frame's return place not audited" 's/f\[F_RETURN\] == 0 \&\& f\[F_CALLER\] == 0/f[F_CALLER] == 0/'
plant "rem of the least number by -1 raises" 's/ \&\& file\[place\] == DIV)) {/)) {/'
plant "a frame's room not audited" 's/if (main_base + head\[5\] > main_len || ptr_base + head\[6\] > ptr_len)/if (0)/'
plant "a caller's call of another procedure let pass" 's/|| operand_at(file, file_len, (size_t)place + 1) != callee))/))/'
plant "a handler's frame not audited" 's/|| h\[H_FRAME\] != frame)/)/'
plant "an exact fit of form raises" 's/heap_len - object < size/heap_len - object <= size/'
plant "the last control record not given" 's/ct + RECORD > ctl_len/ct + RECORD >= ctl_len/'
plant "a handler's target at its 160 let pass" 's/target <= (int64_t)at)/target < (int64_t)at)/'
exit $bad
