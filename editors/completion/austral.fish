# Completion of `austral` for fish: put this file into ~/.config/fish/completions.
function __austral_no_command
    test (count (commandline -opc)) -eq 1
end

function __austral_command
    set -l words (commandline -opc)
    test (count $words) -ge 2; and test $words[2] = $argv[1]
end

# A part is file names joined by commas: what is behind the last one is completed, by fish's own list of files.
function __austral_files
    set -l word (commandline -ct)
    set -l last (string replace -r '^.*,' '' -- $word)
    set -l before (string sub -l (math (string length -- $word) - (string length -- $last)) -- $word)
    for found in (complete -C "'' $last" | string replace -r '\t.*' '' | string match -r '^.*(?:/|\.au[im])$')
        echo -- "$before$found"
    end
end

complete -c austral -f
complete -c austral -n __austral_no_command -a caps -d 'Tell what each function can do with capabilities'
complete -c austral -n __austral_no_command -a check -d 'Say whether the program is accepted'
complete -c austral -n __austral_no_command -a compile -d 'Judge the program, and write it as C'
complete -c austral -n __austral_no_command -a explain -d 'Write the life of each resource'
complete -c austral -n __austral_no_command -a format -d 'Write the layout of a file'
complete -c austral -n __austral_no_command -a run -d 'Judge the program, and run it'
complete -c austral -n __austral_no_command -l help -d 'Say how it is called'
complete -c austral -n __austral_no_command -l version -d 'Say which sources it is built of'
complete -c austral -n '__austral_command compile' -l entry -x -d 'The function to begin with, as M:f'
complete -c austral -n '__austral_command run' -l entry -x -d 'The function to begin with, as M:f'
complete -c austral -n '__austral_command run' -l steps -x -d 'How many steps the run may take'
complete -c austral -n 'not __austral_no_command' -a '(__austral_files)'
