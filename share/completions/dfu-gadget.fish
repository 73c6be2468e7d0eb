# Completion of dfu-gadget for fish: put this file into a folder of fish_complete_path.

# Whether the words before this one are dfu-gadget, the command, and as many further ones, but for options.
function __dfu_gadget_at
    set -l words
    set -l is_value 0
    for word in (commandline -opc)[2..]
        if test $is_value -eq 1
            set is_value 0
        else if contains -- $word --most --controller --config --application --upgrade --check --tries --on-installed \
                --detach-timeout --transfer-size --attributes --busy --manifest --erase --program --least --root
            set is_value 1
        else if not string match -q -- '-?*' $word
            set -a words $word
        end
    end
    test (count $words) -eq (count $argv); or return 1
    test (count $argv) -eq 0; or string match -q -- $argv[1] $words[1]
end

complete -c dfu-gadget -f
complete -c dfu-gadget -s h -l help -d 'Print help'
complete -c dfu-gadget -n __dfu_gadget_at -s V -l version -d 'Print the version'
complete -c dfu-gadget -n __dfu_gadget_at -a format -d 'Make a medium, a file or a block device, with an image active'
complete -c dfu-gadget -n __dfu_gadget_at -a image -d 'Write the active image to standard output'
complete -c dfu-gadget -n __dfu_gadget_at -a run -d 'Be the device, until a signal ends it'
complete -c dfu-gadget -n __dfu_gadget_at -a start -d 'Mark a start, and print the place of the image to start'
complete -c dfu-gadget -n __dfu_gadget_at -a confirm -d 'Keep the image at AT'
complete -c dfu-gadget -n __dfu_gadget_at -a end -d 'Bring the image before back'
complete -c dfu-gadget -n '__dfu_gadget_at start; or __dfu_gadget_at confirm; or __dfu_gadget_at end' -F
complete -c dfu-gadget -n '__dfu_gadget_at format; or __dfu_gadget_at format MEDIUM; or __dfu_gadget_at image; or __dfu_gadget_at run' -F
set -l with_format '__fish_seen_subcommand_from format'
complete -c dfu-gadget -x -n $with_format -l most -d 'Make room for images of up to so many bytes, as 8M'
complete -c dfu-gadget -n $with_format -l force -d 'Overwrite what is there'
set -l with_run '__fish_seen_subcommand_from run'
complete -c dfu-gadget -x -n $with_run -l controller -a '(path basename /sys/class/udc/*)' -d 'Use this controller, a name in /sys/class/udc'
complete -c dfu-gadget -r -F -n $with_run -l config -d 'Read options from FILE, a line for each; words win'
complete -c dfu-gadget -x -n $with_run -l application -d 'The gadget of run-time mode, else application'
complete -c dfu-gadget -x -n $with_run -l upgrade -d 'The gadget of DFU mode, else upgrade'
complete -c dfu-gadget -r -F -n $with_run -l check -d 'Take an image only if PROGRAM MEDIUM AT LENGTH ends with 0'
complete -c dfu-gadget -x -n '__fish_seen_subcommand_from format run start confirm end' -l tries -d 'Start a new image so often at most, until it is confirmed'
complete -c dfu-gadget -r -F -n $with_run -l on-installed -d 'Run PROGRAM MEDIUM AT LENGTH once an image is in place'
complete -c dfu-gadget -n $with_run -l dfu-mode -d 'Begin in DFU mode'
complete -c dfu-gadget -x -n $with_run -l detach-timeout -d 'Wait so long for the reset after a DETACH, else 1000'
complete -c dfu-gadget -x -n $with_run -l transfer-size -d 'Take blocks of up to so many bytes, else 4096'
complete -c dfu-gadget -x -n $with_run -l attributes -a 'download upload tolerant detach' -d 'Of download,upload,tolerant,detach; else the first three'
complete -c dfu-gadget -x -n $with_run -l busy -d 'What a block takes, reported to the host, else 5'
complete -c dfu-gadget -x -n $with_run -l manifest -d 'What an image takes, else 0, or 20 if not tolerant'
complete -c dfu-gadget -x -n $with_run -l erase -d 'What a sector with --tries takes besides, else 0'
complete -c dfu-gadget -x -n $with_run -l program -d 'What 256 bytes of a block take besides, else 0'
complete -c dfu-gadget -x -n $with_run -l least -d 'Take no image of fewer bytes, else 1'
complete -c dfu-gadget -n $with_run -l dry-run -d 'Say what is there and what is missing, and do nothing'
complete -c dfu-gadget -n $with_run -l verbose -d 'Print a line for each request; --verbose=<FILE> logs them'
complete -c dfu-gadget -r -F -n $with_run -l root -d 'Look for /sys, /dev/usb-ffs and /proc in FOLDER, for tests'
