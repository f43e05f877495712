# Completion of xrf for fish.
set -l words replay run drive draw explain check follow diff shrink json coverage build help version
function __xrf_word --argument-names word about
    complete -c xrf -f -n "not __fish_seen_subcommand_from $argv[3..]" -a $word -d $about
end
__xrf_word replay 'runs a scenario and writes it back with its report' $words
__xrf_word run 'the same by threads, which make the choices' $words
__xrf_word drive 'makes choices drawn from a seed, and sums them up' $words
__xrf_word draw 'a picture of a run' $words
__xrf_word explain 'a run told in sentences, or why an input is refused' $words
__xrf_word check 'runs each scenario of a folder and compares with its stored output' $words
__xrf_word follow 'whether a log is a run of the model' $words
__xrf_word diff 'the first act at which two runs part, and how both end' $words
__xrf_word shrink 'the smallest scenario that still shows something' $words
__xrf_word json 'a run as data' $words
__xrf_word coverage 'what the scenarios of a folder have shown, and what they have not' $words
__xrf_word build 'proves and builds the program' $words
__xrf_word help 'says what a word takes' $words
__xrf_word version 'says the version, the commit and the logic' $words
functions -e __xrf_word
complete -c xrf -f -n '__fish_seen_subcommand_from help' -a "$words"
for option in help version program
    complete -c xrf -n "not __fish_seen_subcommand_from $words" -l $option
end
# The options of a word: NAME alone, or NAME= where something stands behind it.
function __xrf_options --argument-names word
    for option in $argv[2..]
        set -l name (string replace '=' '' -- $option)
        set -l behind
        string match -q '*=' -- $option; and set behind -r
        complete -c xrf -n "__fish_seen_subcommand_from $word" -l $name $behind
    end
end
__xrf_options draw text svg acts= width= output= help
__xrf_options explain acts help
__xrf_options check accept strict junit= program= jobs= timeout= quiet help
__xrf_options follow help
__xrf_options diff help
__xrf_options shrink keep= help
__xrf_options json lines back help
__xrf_options coverage missing json= xml= html= fail-under= help
functions -e __xrf_options
