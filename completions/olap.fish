# Completion of olap for fish: commands, then files, and categories as far as they can be read from the schema's text.
# That text is only searched for lines that declare a category; nothing in it, or in the words, is ever run.

# The categories that the file declares, and All. No more than its first 256 KiB is read, and only of a plain file.
function __olap_categories
    set -l file (string replace -r '^~/' "$HOME/" -- $argv[1])
    test -f "$file" -a -r "$file"; or return 1
    head -c 262144 <$file 2>/dev/null | string match -r '^[ \t]*category[ \t]+[A-Za-z][A-Za-z0-9]*(?:[ \t]+number)?[ \t\r]*$' |
        string replace -r '^[ \t]*category[ \t]+([A-Za-z][A-Za-z0-9]*).*' '$1'
    echo All
end

# What stands at each place after a command: f a file, c a category, r a category other than All, d categories that
# differ, n nothing that could be completed.
function __olap_places
    switch $argv[1]
        case rollup answer
            echo fffc
        case check
            echo ff
        case format audit
            echo f
        case summarizable prove prove-short needs
            echo fcd
        case verify verify-short breaks
            echo ffcd
        case implies
            echo frn
        case satisfiable frozen shapes
            echo fc
        case store
            echo fffd
        case append retract
            echo ffff
    end
end

function __olap_candidates
    set -l words (commandline -opc) # those before the cursor's
    set -l place (math (count $words) - 1)
    if test $place -eq 0
        printf '%s\n' rollup check format summarizable prove verify prove-short verify-short needs breaks implies satisfiable \
            frozen shapes audit store answer append retract cube cubeview generate version
        return
    end
    if contains -- $words[2] cube cubeview
        __olap_cube $words
        return
    end
    set -l places (__olap_places $words[2])
    set -l what (string sub -s $place -l 1 -- $places)
    if test -z "$what"; and string match -q '*d' -- $places
        set what d
    end
    switch $what
        case f
            __fish_complete_path (commandline -ct)
        case r
            __olap_categories $words[3] | string match -v All
        case c
            __olap_categories $words[3]
        case d
            # Sources are completed after the target, and the categories of a store after the facts.
            set -l used $words[(math (string length -- $places) + 2)..-1]
            for each in (__olap_categories $words[3])
                contains -- $each $used; or echo $each
            end
    end
end

# Of a cube: K, then files, as many as K says and for cubeview that once more and the facts, and then tuples of
# categories.
function __olap_cube
    set -l place (math (count $argv) - 2)
    if test $place -eq 0
        printf '%s\n' 1 2 3 4
        return
    end
    string match -qr '^[1-4]$' -- $argv[3]; or return
    set -l files $argv[3]
    test $argv[2] = cubeview; and set files (math 2 x $files + 1)
    if test $place -le $files
        __fish_complete_path (commandline -ct)
        return
    end
    test $argv[2] = cubeview -a $place -gt (math $files + 1); and return
    # Of a tuple that is begun, the last piece is completed; the others stay.
    set -l begun (string split , -- (commandline -ct))
    test (count $begun) -le $argv[3]; or return
    set -l front (string join , -- $begun[1..-2])
    test -n "$front"; and set front "$front,"
    printf "$front%s\n" (__olap_categories $argv[(math 3 + (count $begun))])
end

complete -c olap -f -a '(__olap_candidates)'
