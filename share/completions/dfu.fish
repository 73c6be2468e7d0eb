# Completion of dfu for fish: put this file into a folder of fish_complete_path.

# Whether the words before this one are dfu, the command, and as many further ones, but for options.
function __dfu_at
    set -l words
    set -l is_value 0
    for word in (commandline -opc)[2..]
        if test $is_value -eq 1
            set is_value 0
        else if contains -- $word --vid --pid --did --format --fill --interface --device --file --part --boot --areas --parts
            set is_value 1
        else if not string match -q -- '-?*' $word
            set -a words $word
        end
    end
    test (count $words) -eq (count $argv); or return 1
    test (count $argv) -eq 0; or string match -q -- $argv[1] $words[1]
end

# Whether the command is one of these.
function __dfu_of
    for word in (commandline -opc)[2..]
        if not string match -q -- '-?*' $word
            contains -- $word $argv
            return
        end
    end
    return 1
end

complete -c dfu -f
complete -c dfu -s h -l help -d 'Print help'
complete -c dfu -n __dfu_at -s V -l version -d 'Print version'
complete -c dfu -n 'not __fish_seen_subcommand_from help' -l explain -d 'Print the reason of a refusal on standard error'
complete -c dfu -n __dfu_at -a check -d 'Check a DFU file and print what its suffix says'
complete -c dfu -n __dfu_at -a add -d 'Write a raw image and a suffix for it to a new file'
complete -c dfu -n __dfu_at -a extract -d 'Write the payload of a DFU file, without its suffix, to a new file'
complete -c dfu -n __dfu_at -a set -d 'Change the identifiers of a DFU file in place'
complete -c dfu -n __dfu_at -a show -d 'Print the fields of bytes that go over the wire'
complete -c dfu -n __dfu_at -a run -d 'Play a script of events on a simulated link of a host and a device'
complete -c dfu -n __dfu_at -a judge -d 'Check a log or a capture of DFU traffic against USB DFU 1.1'
complete -c dfu -n __dfu_at -a plan -d 'Place gates, headers and data on the flash of a part'
complete -c dfu -n __dfu_at -a help -d 'Print help'
complete -c dfu -n '__dfu_of check judge; or __dfu_at run; or __dfu_at add; or __dfu_at add FILE' -F
complete -c dfu -n '__dfu_at extract; or __dfu_at extract FILE; or __dfu_at set' -F
complete -c dfu -x -n '__fish_seen_subcommand_from add set' -l vid -d 'Vendor, four hexadecimal digits'
complete -c dfu -x -n '__fish_seen_subcommand_from add set' -l pid -d 'Product, four hexadecimal digits'
complete -c dfu -x -n '__fish_seen_subcommand_from add set' -l did -d 'Device release, four hexadecimal digits'
complete -c dfu -x -n '__fish_seen_subcommand_from add' -l format -d 'Format of FILE' -a 'raw auto ihex srec uf2 elf'
complete -c dfu -x -n '__fish_seen_subcommand_from add' -l fill -d 'Byte for the gaps of an image'
complete -c dfu -n '__fish_seen_subcommand_from run' -l trace -d 'Print a line for each action of the host too'
complete -c dfu -r -F -n '__fish_seen_subcommand_from run' -l file -d 'The file that FILE stands for in offer and verify'
complete -c dfu -x -n '__fish_seen_subcommand_from judge' -l interface -d 'The number of the DFU interface'
complete -c dfu -x -n '__fish_seen_subcommand_from judge' -l device -d 'The device in a capture'
complete -c dfu -n '__fish_seen_subcommand_from judge' -l dfuse -d 'Check against DfuSe, an extension of USB DFU 1.1'
complete -c dfu -x -n '__fish_seen_subcommand_from plan' -l part -d 'The part'
complete -c dfu -x -n '__fish_seen_subcommand_from plan' -l boot -d 'Size of the bootloader'
complete -c dfu -x -n '__fish_seen_subcommand_from plan' -l areas -d 'Number of areas for data' -a '2 3'
complete -c dfu -r -F -n '__fish_seen_subcommand_from plan' -l parts -d 'A table of parts in place of the built-in one'
complete -c dfu -n '__fish_seen_subcommand_from check show judge plan' -l json -d 'Print each line as a JSON object'
complete -c dfu -n '__dfu_at show' -a 'functional status state setup configuration'
complete -c dfu -n '__dfu_at help' -a 'check add extract set show run judge plan help'
