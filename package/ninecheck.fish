# Completes the words of ninecheck in fish.
set -l judging check explain run why digest delays motion touches picture page json
set -l others convert split try clock info help
function __ninecheck_asks
    __fish_seen_subcommand_from $argv; and not __fish_seen_subcommand_from help
end
for line in \
    'check|The verdict' \
    'explain|A line for each exchange, and the verdict' \
    'run|One run of the deck, and the verdict' \
    'why|Why a no is one, and the verdict' \
    'convert|A capture of an export' \
    'split|A long capture in parts' \
    'try|Each frame rate, without hands and with' \
    'digest|What happened' \
    'delays|How long the deck took to reply' \
    'motion|What the deck did after each transport command' \
    'touches|Where somebody must have touched the panel' \
    'picture|A picture of the record that breaks a rule' \
    'page|The whole session as one page' \
    'json|A JSON object for each line of a report' \
    'clock|A text with its times as a clock' \
    'info|What a capture says of itself' \
    'help|What can be asked for'
    set -l part (string split '|' $line)
    complete -c ninecheck -n __fish_use_subcommand -f -a $part[1] -d $part[2]
end
complete -c ninecheck -n '__fish_seen_subcommand_from help' -f -a "$judging $others"
complete -c ninecheck -n '__ninecheck_asks convert; and not __fish_seen_subcommand_from sigrok saleae log' -f -a 'sigrok saleae log'
complete -c ninecheck -n "__ninecheck_asks $judging; and not __fish_seen_subcommand_from touches" -l hands -d "Somebody may have touched the deck's panel"
complete -c ninecheck -n "__ninecheck_asks $judging try info" -l sync -d 'The capture may begin inside a command or a reply'
complete -c ninecheck -n "__ninecheck_asks check explain why digest delays motion picture json try; and not __fish_seen_subcommand_from run" -l all -d 'Go on after each break'
complete -c ninecheck -n "__ninecheck_asks check explain why digest motion json; and not __fish_seen_subcommand_from run" -l line-buffered -d 'Write each line as soon as it is complete'
complete -c ninecheck -n '__ninecheck_asks explain json; and not __fish_seen_subcommand_from check run why' -l bytes -d 'Write each exchange with its bytes, as why does'
complete -c ninecheck -n '__ninecheck_asks digest delays motion page json; and not __fish_seen_subcommand_from run' -l from -x -d 'Show what comes at this time or later'
complete -c ninecheck -n '__ninecheck_asks digest delays motion page json; and not __fish_seen_subcommand_from run' -l to -x -d 'Show what comes before this time'
complete -c ninecheck -n '__ninecheck_asks json; and not __fish_seen_subcommand_from check explain run why' -a 'check explain run why' -d 'The report that the objects are made of'
complete -c ninecheck -n "__ninecheck_asks $judging info try" -l rate -x -a '24 25 30 29.97df' -d 'The frame rate of the machine, 25 if left out'
complete -c ninecheck -n "__ninecheck_asks $judging try" -l deck -r -F -a '9pin edit eject jog no-bit rewind standby user-bits var-play' -d 'A sheet of what this deck does of its own'
complete -c ninecheck -n '__ninecheck_asks why; and not __fish_seen_subcommand_from json' -l quiet -d 'Without the line that says what to ask next'
complete -c ninecheck -n '__ninecheck_asks picture' -l at -x -d 'The record of the break'
complete -c ninecheck -n '__ninecheck_asks picture' -l width -x -d 'The greatest width in pixels'
complete -c ninecheck -n '__ninecheck_asks clock' -l seconds -d 'Write the times in seconds'
complete -c ninecheck -n '__ninecheck_asks split' -l to -r -F -d 'How the parts are called'
complete -c ninecheck -n '__ninecheck_asks split' -l rows -x -d 'The most rows of a part'
complete -c ninecheck -n '__ninecheck_asks convert; and __fish_seen_subcommand_from sigrok' -l samplerate -x -d 'Samples a second'
complete -c ninecheck -n '__ninecheck_asks convert; and __fish_seen_subcommand_from saleae log' -l controller -x -d "The controller's analyzer or port"
complete -c ninecheck -n '__ninecheck_asks convert; and __fish_seen_subcommand_from saleae log' -l deck -x -d "The deck's analyzer or port"
complete -c ninecheck -n '__ninecheck_asks convert; and __fish_seen_subcommand_from log' -l unit -x -a 'ms us' -d 'The unit of a counter'
complete -c ninecheck -n '__ninecheck_asks convert; and __fish_seen_subcommand_from log' -l live -d 'Write each row as soon as it can be'
complete -c ninecheck -n '__ninecheck_asks convert' -l from -x -d 'Leave out the bytes before this time, in seconds'
complete -c ninecheck -n '__ninecheck_asks convert' -l to -x -d 'Leave out the bytes from this time on, in seconds'
complete -c ninecheck -s h -l help -d 'What can be asked for'
complete -c ninecheck -n __fish_use_subcommand -s V -l version -d 'The version'
