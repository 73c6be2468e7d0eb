# Completion of dfu-flash for fish: put this file into a folder of fish_complete_path.

# What --list has of the boards that are there; one with a byte that can't be typed is left out.
function __dfu_flash_there
    set -l words (commandline -poc)
    set -l cut
    switch $argv[1]
        case device
            set cut 's/^\([^ ]*\) path .*/\1/p'
        case path
            set cut 's/^[^ ]* path \([^ ]*\) .*/\1/p'
        case serial
            set cut 's/^[^ ]* path [^ ]* serial \([^\\\\]*\) interface [0-9]* alt .*/\1/p'
        case alt
            set cut 's/^[^ ]* path .* interface [0-9]* alt \([0-9]*\) .*/\1/p'
    end
    command $words[1] --list 2> /dev/null | sed -n $cut | sort -u
end

complete -c dfu-flash -F
complete -c dfu-flash -r -F -s D -d 'The file, as with dfu-util'
complete -c dfu-flash -x -s d -l device -d 'Take this device, four hexadecimal digits each' -a '(__dfu_flash_there device)'
complete -c dfu-flash -x -s p -l path -d 'Take the device at this path, as 1-2.3' -a '(__dfu_flash_there path)'
complete -c dfu-flash -x -s S -l serial -d 'Take the device with this serial number' -a '(__dfu_flash_there serial)'
complete -c dfu-flash -x -s i -l interface -d 'Take the interface of this number'
complete -c dfu-flash -x -s a -l alt -d 'Take the alternate setting of this number or name' -a '(__dfu_flash_there alt)'
complete -c dfu-flash -l no-verify -d 'Don\'t upload the image after the download to compare it'
complete -c dfu-flash -l raw -d 'Send the bytes of FILE as they are, whatever they look like'
complete -c dfu-flash -r -F -s U -l upload -d 'Fetch the active image into a new file'
complete -c dfu-flash -l force -d 'Let an upload replace a file that is there'
complete -c dfu-flash -s e -l detach -d 'Bring the device to DFU mode, and stop there'
complete -c dfu-flash -s w -l wait -d 'Wait until the device is there; --wait=<S> for S seconds at most'
complete -c dfu-flash -x -l timeout -d 'Break the session off after S seconds'
complete -c dfu-flash -x -l limits -d 'Give up after A actions, or after R restarts of the device'
complete -c dfu-flash -x -s t -l transfer-size -d 'Send and ask for blocks of B bytes, up to 4096, whatever the device says'
complete -c dfu-flash -x -s s -l address -d 'Write FILE to a DfuSe device, or read it, from this address on, as 0x08000000'
complete -c dfu-flash -x -l length -d 'Read so many bytes, with --upload and --address'
complete -c dfu-flash -l no-leave -d 'Let a DfuSe device stay in DFU mode once all is compared'
complete -c dfu-flash -l dry-run -d 'Look for file and device, and send nothing'
complete -c dfu-flash -l quiet -d 'Print no progress, no notes, no next step, and not what a code means'
complete -c dfu-flash -l verbose -d 'Print a line for each transfer, wait and reset; --verbose=<FILE> logs them'
complete -c dfu-flash -l json -d 'Print one record in JSON at the end'
complete -c dfu-flash -l all -d 'Flash every device that the file is for, with --wait also those that come'
complete -c dfu-flash -x -l log -d 'Make a log of each device of --all in this folder' -a '(__fish_complete_directories)'
complete -c dfu-flash -r -F -l report -d 'Add a line for each device to FILE: CSV if its name ends in .csv, else JSON'
complete -c dfu-flash -r -F -l ports -d 'Take names for paths from FILE, a line each, as 3-1.4 = bay 7'
complete -c dfu-flash -x -l retry -d 'Try a device that went or fell silent N times more'
complete -c dfu-flash -x -l count -d 'End --all once N devices are flashed'
complete -c dfu-flash -r -F -l stamp -d 'Write the next line of LIST into each image, as a serial number or a key'
complete -c dfu-flash -x -l stamp-at -d 'Where --stamp writes: from place P of the image on, N bytes at most, as 0x40:16'
complete -c dfu-flash -s l -l list -d 'List the devices that are there'
complete -c dfu-flash -l demo -d 'Show with a simulated board what this program does; no USB is touched'
complete -c dfu-flash -s h -l help -d 'Print help'
complete -c dfu-flash -s V -l version -d 'Print the version'
