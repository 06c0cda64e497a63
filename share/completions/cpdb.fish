# Completes the words of cpdb in fish: source this file, or put it into ~/.config/fish/completions.

# Whether the word that is typed has this number, options left out, and the first one is among the others.
function __cpdb_at
    set -l words (commandline -opc)
    set -l at 1
    set -l skip 0
    for word in $words[2..-1]
        if test $skip = 1
            set skip 0
        else if string match -q -- '-*' $word
            contains -- $word --against --at --base --below --by --comment --encoding --escape --format --from --header --ins --key --only --quote --ragged --repeated --separator --since --statements --until
            and set skip 1
        else
            set at (math $at + 1)
        end
    end
    test $at -eq $argv[1]
    and contains -- "$words[2]" $argv[2..-1]
end

# Whether the first word is this one.
function __cpdb_is
    set -l words (commandline -opc)
    test (count $words) -gt 1
    and test $words[2] = $argv[1]
end

# Whether the tool `shell` is to be one in memory.
function __cpdb_in_memory
    contains -- scratch (commandline -opc)[3..-1]
end

complete -c cpdb -f

complete -c cpdb -n __fish_is_first_token -a scratch -d 'Run statements on a database in memory'
complete -c cpdb -n __fish_is_first_token -a init -d 'Make a store'
complete -c cpdb -n __fish_is_first_token -a run -d 'Run statements on a store'
complete -c cpdb -n __fish_is_first_token -a share -d 'Run statements of several curators on a store'
complete -c cpdb -n __fish_is_first_token -a commit -d 'Run a file of statements on a store, and commit'
complete -c cpdb -n __fish_is_first_token -a load -d 'Load a source into a store'
complete -c cpdb -n __fish_is_first_token -a query -d 'Answer one statement from a store'
complete -c cpdb -n __fish_is_first_token -a gen -d 'Run a generated workload in memory'
complete -c cpdb -n __fish_is_first_token -a log -d 'List the commits of a store'
complete -c cpdb -n __fish_is_first_token -a at -d 'Answer one statement in a version of a store'
complete -c cpdb -n __fish_is_first_token -a archive -d 'Tell how many versions a store has'
complete -c cpdb -n __fish_is_first_token -a verify -d 'Compare the records of a store with a replay'
complete -c cpdb -n __fish_is_first_token -a uses -d 'Tell which places use the data of one'
complete -c cpdb -n __fish_is_first_token -a help -d 'Tell the commands and tools, or how a tool is used'
complete -c cpdb -n __fish_is_first_token -l version -d 'Tell the commit and the kit'
complete -c cpdb -n __fish_is_first_token -l help -d 'Tell the commands and tools'

set -l at_tool '__fish_is_first_token; or __cpdb_at 2 help'
complete -c cpdb -n $at_tool -a backup -d 'Copy a store, and test it against the copy before'
complete -c cpdb -n $at_tool -a diff -d 'Tell what differs between two versions'
complete -c cpdb -n $at_tool -a find -d 'Search the labels and values of a store'
complete -c cpdb -n $at_tool -a history -d 'Tell the commits, or what happened at a place'
complete -c cpdb -n $at_tool -a json -d 'Write a place as JSON, CSV or PROV-JSON'
complete -c cpdb -n $at_tool -a ls -d 'List what stands at a place'
complete -c cpdb -n $at_tool -a outdated -d 'Tell what a newer file of a source changes'
complete -c cpdb -n $at_tool -a page -d 'Write a page to look at a store with'
complete -c cpdb -n $at_tool -a prepare -d 'Make of a file what load takes'
complete -c cpdb -n $at_tool -a rescue -d 'Copy what opens of a broken store'
complete -c cpdb -n $at_tool -a revert -d 'Write the statements that undo a commit'
complete -c cpdb -n $at_tool -a shell -d 'A session at the terminal'
complete -c cpdb -n $at_tool -a sources -d 'Tell the sources of a store'
complete -c cpdb -n $at_tool -a stats -d 'Tell what the file of a store consists of'
complete -c cpdb -n $at_tool -a try -d 'Tell what a script would change'
complete -c cpdb -n $at_tool -a update -d 'Write the statements that take a newer source over'

set -l at_kind '__cpdb_at 2 scratch; or __cpdb_at 3 init; or __cpdb_at 4 gen; or begin; __cpdb_at 3 shell; and __cpdb_in_memory; end'
complete -c cpdb -n $at_kind -a n -d Naive
complete -c cpdb -n $at_kind -a t -d Transactional
complete -c cpdb -n $at_kind -a h -d Hierarchical
complete -c cpdb -n $at_kind -a ht -d 'Hierarchical and transactional'

complete -c cpdb -n '__cpdb_at 4 load' -a json -d 'A tree'
complete -c cpdb -n '__cpdb_at 4 load' -a csv -d 'A table with a header'

complete -c cpdb -n '__cpdb_at 3 query' -a records -d 'All records'
complete -c cpdb -n '__cpdb_at 3 query; or __cpdb_at 4 at' -a show -d 'The tree'
complete -c cpdb -n '__cpdb_at 3 query' -a stats -d 'Numbers of the store'

complete -c cpdb -n '__cpdb_at 2 shell' -a scratch -d 'A session in memory'

complete -c cpdb -n '__cpdb_at 2 init run share commit load query log at archive verify uses' -F
complete -c cpdb -n '__cpdb_at 3 scratch commit' -F
complete -c cpdb -n '__cpdb_at 4 init; or __cpdb_at 5 load' -F
complete -c cpdb -n '__cpdb_at 2 backup diff find history json ls outdated page prepare rescue revert shell sources stats try update' -F
complete -c cpdb -n '__cpdb_at 3 backup page rescue try; or __cpdb_at 4 outdated' -F
complete -c cpdb -n '__cpdb_at 4 shell; and __cpdb_in_memory' -F

for tool in backup diff find history json ls outdated page prepare rescue revert shell sources stats try update
    complete -c cpdb -n "__cpdb_is $tool" -l help -d 'Tell how the tool is used'
end

complete -c cpdb -n '__cpdb_is backup' -l against -r -F -d 'The earlier backup to test against'

complete -c cpdb -n '__cpdb_is diff' -l below -x -d 'Only what differs at a place and below it'
complete -c cpdb -n '__cpdb_is diff' -l by -x -d 'Only what one curator was the last to change'
complete -c cpdb -n '__cpdb_is diff' -l full -d 'Write what stood there whole'
complete -c cpdb -n '__cpdb_is diff' -l json -d 'Write one JSON value'

complete -c cpdb -n '__cpdb_is find' -l all -d 'Search in all sources too'
complete -c cpdb -n '__cpdb_is find' -l below -x -d 'Search at a place and below it'
complete -c cpdb -n '__cpdb_is find' -l exact -d 'The whole label or value is the text'
complete -c cpdb -n '__cpdb_is find' -l ignore-case -d 'Great and small letters count as the same'
complete -c cpdb -n '__cpdb_is find' -l labels -d 'Search labels alone'
complete -c cpdb -n '__cpdb_is find' -l places -d 'Write places alone'
complete -c cpdb -n '__cpdb_is find' -l values -d 'Search values alone'

complete -c cpdb -n '__cpdb_is history' -l by -x -d 'The commits of one curator'
complete -c cpdb -n '__cpdb_is history' -l full -d 'Write what stood there whole'
complete -c cpdb -n '__cpdb_is history' -l reverse -d 'The newest commit first'
complete -c cpdb -n '__cpdb_is history' -l since -x -d 'The commits from a date on'
complete -c cpdb -n '__cpdb_is history' -l until -x -d 'The commits up to a date'
complete -c cpdb -n '__cpdb_is history' -l values -d 'Tell the values before and after'

complete -c cpdb -n '__cpdb_is json' -l all -d 'Tell in PROV-JSON also what stood there once'
complete -c cpdb -n '__cpdb_is json' -l arrays -d 'Write nodes with the labels 0 to n as arrays'
complete -c cpdb -n '__cpdb_is json' -l at -x -d 'The version that is written'
complete -c cpdb -n '__cpdb_is json' -l base -x -d 'How the identifiers of PROV-JSON begin'
complete -c cpdb -n '__cpdb_is json' -l csv -d 'Write a table as CSV'
complete -c cpdb -n '__cpdb_is json' -l key -x -d 'The header of the column with the labels of the rows'
complete -c cpdb -n '__cpdb_is json' -l prov -d 'Write the provenance as PROV-JSON'
complete -c cpdb -n '__cpdb_is json' -l provenance -d 'Write beside each value where it came from'

complete -c cpdb -n '__cpdb_is ls' -l full -d 'Write what stands there whole'
complete -c cpdb -n '__cpdb_is ls' -l long -d 'With the last step, its date and its curator'
complete -c cpdb -n '__cpdb_is ls' -l places -d 'Places alone, each whole'
complete -c cpdb -n '__cpdb_is ls' -l recursive -d 'All places below'

complete -c cpdb -n '__cpdb_is outdated' -l all -d 'Tell each place'
complete -c cpdb -n '__cpdb_is outdated' -l by -x -d 'The column that names the rows'
complete -c cpdb -n '__cpdb_is outdated' -l format -x -a 'json csv' -d 'The form of the newer file'
complete -c cpdb -n '__cpdb_is outdated' -l new -d 'Tell also what the newer file adds'

complete -c cpdb -n '__cpdb_is prepare' -l at -x -d 'The value of the file that is taken'
complete -c cpdb -n '__cpdb_is prepare' -l comment -x -d 'What begins a line that is a comment'
complete -c cpdb -n '__cpdb_is prepare' -l encoding -x -d 'The encoding of the file'
complete -c cpdb -n '__cpdb_is prepare' -l escape -x -d 'What stands before a character that means itself'
complete -c cpdb -n '__cpdb_is prepare' -l from -x -a 'json csv' -d 'What the file has'
complete -c cpdb -n '__cpdb_is prepare' -l header -x -d 'The headers of a file that has none'
complete -c cpdb -n '__cpdb_is prepare' -l ins -x -d 'Write the insertions that make the value at a place'
complete -c cpdb -n '__cpdb_is prepare' -l key -x -d 'The field that labels each element or row'
complete -c cpdb -n '__cpdb_is prepare' -l quote -x -d 'What stands round a field'
complete -c cpdb -n '__cpdb_is prepare' -l ragged -x -a fill -d 'Give each row as many fields as the header has'
complete -c cpdb -n '__cpdb_is prepare' -l repeated -x -a 'first last number' -d 'What becomes of a key that stands twice'
complete -c cpdb -n '__cpdb_is prepare' -l separator -x -d 'What stands between the fields'
complete -c cpdb -n '__cpdb_is prepare' -l verbose -d 'Name every change'

complete -c cpdb -n '__cpdb_is rescue' -l statements -r -F -d 'Write the operations that were left'
complete -c cpdb -n '__cpdb_is revert' -l anyway -d 'Undo also what later commits have changed'
complete -c cpdb -n '__cpdb_is shell' -l read -d 'Look at a copy of the store'
complete -c cpdb -n '__cpdb_is stats' -l commits -d 'Tell each commit too'
complete -c cpdb -n '__cpdb_is try' -l full -d 'Write statements, and what stands there, whole'
complete -c cpdb -n '__cpdb_is try' -l refusals -d 'Tell refusals alone'
complete -c cpdb -n '__cpdb_is try' -l skip -d 'Leave out what is refused, and go on'
complete -c cpdb -n '__cpdb_is update' -l below -x -d 'Only what stands at a place and below it'
complete -c cpdb -n '__cpdb_is update' -l only -x -a 'changed gone new' -d 'Only changes of one sort'
