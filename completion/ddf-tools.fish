# Completes the words of ddf's tools in fish. No disk is read for it.

complete -c ddf-check -l quiet -d 'Print nothing where all is in order'
complete -c ddf-check -l scrub -d 'Compare copies and parity, too'
complete -c ddf-check -l group -x -d 'Which group'

complete -c ddf-save -n __fish_is_first_arg -f -a 'save list diff restore'
complete -c ddf-save -n 'not __fish_is_first_arg' -l yes -d 'Put records back without a question'
complete -c ddf-save -n 'not __fish_is_first_arg' -l some -d 'Put back only the disks that are named'

complete -c ddf-try -l keep -r -d 'Keep the copies in a folder'
complete -c ddf-json -l careful -d 'Do nothing where ddf would ask'
complete -c ddf-json -l yes -d 'Ask nothing'
complete -c ddf-json -l text -x -d 'Take what ddf printed, and its status'
complete -c ddf-scan -l all -d 'Name blank devices, too'

complete -c ddf-guard -f -a 'on off check'
complete -c ddf-guard -l root -r -d 'The folder of another system'

complete -c ddf-dmsetup -l write -d 'Devices that can be written to'
complete -c ddf-dmsetup -l group -x -d 'Which group'

for tool in ddf-check ddf-save ddf-try ddf-json ddf-scan ddf-guard ddf-dmsetup
    complete -c $tool -n __fish_is_first_arg -l help -d 'Show the words'
end
