# Completions of aliasplan for fish. `install` puts them into share/fish/vendor_completions.d.
# tests/completions compares what is offered with the program's help.

function __aliasplan_operands --description 'The words before the cursor that are neither options nor their values'
    set -l is_value false
    for word in (commandline --tokenize --cut-at-cursor --current-process)[2..]
        if $is_value
            set is_value false
        else if contains -- $word --workers --cut --form --from --to --tables --settings --aliases --mailboxes --transport --mx --envelope
            set is_value true
        else if not string match --quiet -- '-?*' $word
            echo $word
        end
    end
end

function __aliasplan_is --description 'Whether the command is one of these'
    set -l operands (__aliasplan_operands)
    contains -- "$operands[1]" $argv
end

function __aliasplan_takes --description 'Whether a command is due, or a file'
    set -l operands (__aliasplan_operands)
    switch "$argv[1] "(count $operands)
        case 'command 0'
            true
        case 'command 1'
            test $operands[1] = help
        case 'file 1'
            contains -- $operands[1] plan check domains
        case 'file 2'
            contains -- $operands[1] explain expand
        case 'file *'
            test "$operands[1]" = expand -a (count $operands) -gt 2
        case '*'
            return 1
    end
end

complete --command aliasplan --no-files
complete --command aliasplan --condition '__aliasplan_takes file' --force-files
complete --command aliasplan --condition '__aliasplan_takes command' --arguments plan --description 'Write the plan of a job'
complete --command aliasplan --condition '__aliasplan_takes command' --arguments explain --description 'Write why an address is in the plan of a job, or isn\'t'
complete --command aliasplan --condition '__aliasplan_takes command' --arguments expand --description 'Write the addresses that names and addresses expand to'
complete --command aliasplan --condition '__aliasplan_takes command' --arguments check --description 'Write what is wrong with the files and tables of a job'
complete --command aliasplan --condition '__aliasplan_takes command' --arguments domains --description 'Write the names whose mail exchangers a job asks for'
complete --command aliasplan --condition '__aliasplan_takes command' --arguments gather --description 'Write the job of files that lie apart'
complete --command aliasplan --condition '__aliasplan_takes command' --arguments help --description 'Print help'

complete --command aliasplan --condition 'not __aliasplan_is help' --short-option h --long-option help --description 'Print help'
complete --command aliasplan --condition '__aliasplan_is ""' --short-option V --long-option version --description 'Print the version'
complete --command aliasplan --condition 'not __aliasplan_is help' --short-option v --long-option verbose --description 'Say which line or file has a fault, and why'
complete --command aliasplan --condition '__aliasplan_is plan explain expand check domains' --long-option workers --exclusive --description 'How many threads share a piece of work, from 1 to 64'
complete --command aliasplan --condition '__aliasplan_is plan explain expand check domains' --long-option cut --exclusive --description 'How many pairs a thread takes at once, from 1 to 1048576'
complete --command aliasplan --condition '__aliasplan_is plan explain expand check domains' --long-option max-bytes --exclusive --description 'How many bytes a job has at most'
complete --command aliasplan --condition '__aliasplan_is plan explain expand check domains' --long-option max-names --exclusive --description 'How many names a job has at most'
complete --command aliasplan --condition '__aliasplan_is plan explain expand check domains' --long-option max-owners --exclusive --description 'How many aliases with an owner a job has at most'
complete --command aliasplan --condition '__aliasplan_is plan explain expand check domains' --long-option max-pairs --exclusive --description 'How many pairs of sender and name a job reaches at most'
complete --command aliasplan --condition '__aliasplan_is plan' --long-option form --exclusive --arguments 'plan wire json' --description 'What the plan is written as'
complete --command aliasplan --condition '__aliasplan_is plan' --long-option returns --description 'Say for each sender what can not be delivered'
complete --command aliasplan --condition '__aliasplan_is plan' --long-option each --description 'Plan many envelopes by the same tables'
complete --command aliasplan --condition '__aliasplan_is plan' --long-option tables --require-parameter --force-files --description 'With --each, the file with settings, files and tables'
complete --command aliasplan --condition '__aliasplan_is plan explain domains' --long-option from --exclusive --description 'With --to, the sender in place of that of the envelope'
complete --command aliasplan --condition '__aliasplan_is plan explain domains' --long-option to --exclusive --description 'A recipient in place of those of the envelope'
complete --command aliasplan --condition '__aliasplan_is expand' --long-option senders --description 'Write each address behind each of its senders'
complete --command aliasplan --condition '__aliasplan_is expand' --long-option tree --description 'Write a tree of what lies in what'
complete --command aliasplan --condition '__aliasplan_is expand' --long-option form --exclusive --arguments 'lines dot' --description 'What the expansion is written as'
complete --command aliasplan --condition '__aliasplan_is check' --long-option all --description 'Follow every alias too'
complete --command aliasplan --condition '__aliasplan_is plan explain expand check domains gather' --long-option settings --require-parameter --force-files --description 'The settings'
complete --command aliasplan --condition '__aliasplan_is plan explain expand check domains gather' --long-option aliases --require-parameter --force-files --description 'An alias file'
complete --command aliasplan --condition '__aliasplan_is plan explain expand check domains gather' --long-option mailboxes --require-parameter --force-files --description 'The names that have a mailbox'
complete --command aliasplan --condition '__aliasplan_is plan explain expand check domains gather' --long-option transport --require-parameter --force-files --description 'A transport table'
complete --command aliasplan --condition '__aliasplan_is plan explain expand check domains gather' --long-option mx --require-parameter --force-files --description 'The mail exchangers'
complete --command aliasplan --condition '__aliasplan_is plan explain expand check domains gather' --long-option envelope --require-parameter --force-files --description 'The envelope'
