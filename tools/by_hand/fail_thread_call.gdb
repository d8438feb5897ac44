# For gdb, behind a `catch syscall` of one call and the program's arguments: has the call fail that comes behind $before others
# of its kind, of all threads but the first, with the result $result. Writes `a call has failed` where it came. The status is
# the program's, or 128 and more where a signal ended it.
set pagination off
set confirm off
unset environment LINES
unset environment COLUMNS
# A call stops where it begins and where it ends; until it ends, its result is -38, which is ENOSYS.
condition 1 $_thread != 1 && $rax == -38
ignore 1 $before
run
if $_isvoid($_exitcode) && $_isvoid($_exitsignal)
    eval "tbreak *$pc thread %d", $_thread
    # There is no call of this number, so nothing is done.
    set $orig_rax = -1
    delete 1
    continue
    set $rax = $result
    echo a call has failed\n
    continue
end
if $_isvoid($_exitcode)
    quit 128 + $_exitsignal
end
quit $_exitcode
