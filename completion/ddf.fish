# Completes the words of ddf in fish. No disk is read for it, so that names of arrays and GUIDs of groups aren't offered.

# The words behind -- and perhaps @GROUP, before the one that is being typed.
function __ddf_behind
    set -l given (commandline -opc)
    set -l dashes (contains -i -- -- $given)
    or return
    set -l behind $given[(math $dashes + 1)..]
    string match -q -- '@*' $behind[1]
    and set -e behind[1]
    for word in $behind
        echo $word
    end
end

# Whether the words stand before --.
function __ddf_before
    not contains -- -- (commandline -opc)
end

# Whether no word stands before this one.
function __ddf_first
    test (count (commandline -opc)) -eq 1
end

# Whether a command is the next word.
function __ddf_wants_command
    contains -- -- (commandline -opc)
    and test (count (__ddf_behind)) -eq 0
end

# Whether no group is named.
function __ddf_ungrouped
    not string match -q -- '@*' (commandline -opc)
end

# Whether this is the command, and so many words stand from it on.
function __ddf_at
    set -l behind (__ddf_behind)
    test "$behind[1]" = $argv[1]
    and test (count $behind) -eq $argv[2]
end

# Whether the words are those of label from its second on.
function __ddf_labels
    set -l behind (__ddf_behind)
    test "$behind[1]" = label
end

# Whether the word of a label's size may be next.
function __ddf_sized
    set -l behind (__ddf_behind)
    test "$behind" = label; or test "$behind" = 'label linux'
end

# The images of the call that aren't named behind the command.
function __ddf_images
    set -l given (commandline -opc)
    set -l dashes (contains -i -- -- $given)
    or return
    for image in $given[2..(math $dashes - 1)]
        contains -- $image --careful --yes (__ddf_behind)
        or echo $image
    end
end

complete -c ddf -n 'not __ddf_before' -f
complete -c ddf -n __ddf_before -a --
complete -c ddf -n __ddf_first -l careful -d 'Do nothing where it would ask'
complete -c ddf -n __ddf_first -l yes -d 'Ask nothing'
complete -c ddf -n __ddf_before -l help -d 'Show the words'
complete -c ddf -n __ddf_before -l version -d 'Show the version'

complete -c ddf -n '__ddf_wants_command; and __ddf_ungrouped' -a examine -d 'Show what each disk holds'
complete -c ddf -n '__ddf_wants_command; and __ddf_ungrouped' -a label -d 'Make a new group of blank disks'
complete -c ddf -n '__ddf_wants_command; and __ddf_ungrouped' -a exercise -d 'Try the program on disks in memory'
complete -c ddf -n __ddf_wants_command -a assemble -d 'Recover the group, and show its members and arrays'
complete -c ddf -n __ddf_wants_command -a show -d 'Show the group as its disks record it'
complete -c ddf -n __ddf_wants_command -a read -d 'Print blocks of an array'
complete -c ddf -n __ddf_wants_command -a scrub -d 'Tell whether copies and parity agree'
complete -c ddf -n __ddf_wants_command -a accept -d 'Take copies and parity to agree, on your word'
complete -c ddf -n __ddf_wants_command -a resync -d 'Make copies and parity agree'
complete -c ddf -n __ddf_wants_command -a rebuild -d 'Fill a position that has lost its disk'
complete -c ddf -n __ddf_wants_command -a copyback -d 'Move what a revertible spare holds to a new disk'
complete -c ddf -n __ddf_wants_command -a write -d 'Write blocks of an array'
complete -c ddf -n __ddf_wants_command -a create -d 'Make an array'
complete -c ddf -n __ddf_wants_command -a delete -d 'Remove an array from the records'
complete -c ddf -n __ddf_wants_command -a spare -d 'Say what a disk may stand in for'
complete -c ddf -n __ddf_wants_command -a fail -d 'Take a disk out of use for good'
complete -c ddf -n __ddf_wants_command -a import -d 'Take the disks and arrays of another group in'
complete -c ddf -n __ddf_wants_command -a batch -d 'Do the commands on the lines of standard input'

complete -c ddf -n '__ddf_at label 1' -a linux -d "Disks that Linux's mdadm takes"
complete -c ddf -n '__ddf_sized' -a large -d 'Disks of a group of up to 63'
complete -c ddf -n '__ddf_labels; or __ddf_at fail 1; or __ddf_at spare 1; or __ddf_at copyback 2' -a '(__ddf_images)'
complete -c ddf -n '__ddf_at spare 2' -a 'global revertible for off'
complete -c ddf -n '__ddf_at create 2' -a 'raid0 raid1 raid1e.adjacent raid1e.offset raid4.first raid4.last raid5.r0 raid5.rn raid5.rnc jbod concat'
complete -c ddf -n '__ddf_at create 3' -a '(seq 0 15)'
complete -c ddf -n '__ddf_at create 4' -a 'single striped mirrored concat spanned'
