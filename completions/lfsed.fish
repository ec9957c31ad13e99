# Completions of lfsed for fish, written by bin/manual.

# The words of the line that are no options, behind the command; and the block size that is said.
function __lfsed_words
  set -l words (commandline -opc)
  set -l at 3
  while test $at -le (count $words)
    switch $words[$at]
      case -b --block --count --size --name-max --file-max --attr-max --inline-max --from-block --offset --keep --from --steps
        set at (math $at + 1)
      case '-*'
      case '*'
        echo -- $words[$at]
    end
    set at (math $at + 1)
  end
end

function __lfsed_block
  string match -rg -- '(?:^|\s)(?:-b\s*|--block[=\s])(\d+|auto)' (commandline -pc | string collect)
end

# Whether a command is named, and so many words stand behind it: __lfsed_at COMMAND COUNT
function __lfsed_at
  set -l words (commandline -opc)
  test (count $words) -ge 2; and test $words[2] = $argv[1]; and test (count (__lfsed_words)) -eq $argv[2]
end

# The paths in the image that is named. A path with a byte that isn't printed as itself is left out.
function __lfsed_paths
  set -l image (__lfsed_words)[1]
  set -l block (__lfsed_block)
  set -q block[1]; and set block --block $block[-1]
  lfsed ls $block -- $image 2>/dev/null | string match -v '*\\x*' | string match -rg '^[df] .{10} (.*)$'
end

complete -c lfsed -f
complete -c lfsed -n __fish_use_subcommand -a format -d 'Write a new image, in place of a file of this name'
complete -c lfsed -n __fish_use_subcommand -a pack -d 'Write a new image with what is in a folder, in place of a file of this name'
complete -c lfsed -n __fish_use_subcommand -a repack -d 'Write a new image with all that another one holds, in place of a file of this name'
complete -c lfsed -n __fish_use_subcommand -a find -d 'List where in a file images begin, with what they state and whether they mount'
complete -c lfsed -n __fish_use_subcommand -a extract -d 'Make a new folder with what is in an image; attributes are left behind'
complete -c lfsed -n __fish_use_subcommand -a salvage -d 'Make a new folder with all that can still be read of an image, also of one that doesn\'t mount'
complete -c lfsed -n __fish_use_subcommand -a check -d 'Judge an image; print its geometry, free blocks, directories and files'
complete -c lfsed -n __fish_use_subcommand -a ls -d 'List what stands at each path, with sizes and attributes'
complete -c lfsed -n __fish_use_subcommand -a blocks -d 'Print which blocks hold what, and which are free'
complete -c lfsed -n __fish_use_subcommand -a cat -d 'Print the contents of a file'
complete -c lfsed -n __fish_use_subcommand -a diff -d 'List what another image has otherwise, row by row, as ls prints it'
complete -c lfsed -n __fish_use_subcommand -a log -d 'List the changes that the journal keeps, and what each of them changed'
complete -c lfsed -n __fish_use_subcommand -a mkdir -d 'Make a directory'
complete -c lfsed -n __fish_use_subcommand -a put -d 'Put a file, in place of one of this path; its contents are read from standard input'
complete -c lfsed -n __fish_use_subcommand -a rm -d 'Remove a file or an empty directory'
complete -c lfsed -n __fish_use_subcommand -a mv -d 'Move a file, or a directory with all that is below it'
complete -c lfsed -n __fish_use_subcommand -a setattr -d 'Set an attribute of a file or a directory'
complete -c lfsed -n __fish_use_subcommand -a rmattr -d 'Remove an attribute of a file or a directory'
complete -c lfsed -n __fish_use_subcommand -a grow -d 'Lengthen an image by erased blocks; what it holds stays'
complete -c lfsed -n __fish_use_subcommand -a sync -d 'Make an image like a folder, as one change: what is equal stays as it is'
complete -c lfsed -n __fish_use_subcommand -a undo -d 'Take the latest change back, byte for byte'
complete -c lfsed -n __fish_use_subcommand -a redo -d 'Make the latest change again that was taken back'
complete -c lfsed -n __fish_use_subcommand -a forget -d 'Keep the image alone: its changes can no longer be taken back'
complete -c lfsed -n __fish_use_subcommand -a adopt -d 'Take over an image that a device wrote, in place'
complete -c lfsed -n __fish_use_subcommand -a batch -d 'Carry out the steps of a script, a line each: all of them or none'
complete -c lfsed -n __fish_use_subcommand -a explain -d 'Say what faults mean, and what to do'
complete -c lfsed -n '__lfsed_at help 0' -a 'format pack repack find extract salvage check ls blocks cat diff log mkdir put rm mv setattr rmattr grow sync undo redo forget adopt batch explain'
complete -c lfsed -n '__lfsed_at format 0' -F
complete -c lfsed -n '__fish_seen_subcommand_from format' -s b -l block -x -d 'Size of a block, a multiple of 16 from 256 to 65536 [default: 4096]'
complete -c lfsed -n '__fish_seen_subcommand_from format' -l count -x -d 'Number of blocks, from 2 to 65536; at most 67108864 bytes in all'
complete -c lfsed -n '__fish_seen_subcommand_from format' -l size -x -d 'Size of the image, in place of the number of blocks: 1048576, 0x100000, 1024k or 1M'
complete -c lfsed -n '__fish_seen_subcommand_from format' -l name-max -x -d 'Greatest length of a name in bytes, from 1 to 1022 [default: 255]'
complete -c lfsed -n '__fish_seen_subcommand_from format' -l file-max -x -d 'Greatest length of a file in bytes, from 1 to 2147483647 [default: 2147483647]'
complete -c lfsed -n '__fish_seen_subcommand_from format' -l attr-max -x -d 'Greatest length of an attribute in bytes, from 1 to 1022 [default: 1022]'
complete -c lfsed -n '__fish_seen_subcommand_from format' -l new -d 'Refuse to replace a file that is there'
complete -c lfsed -n '__fish_seen_subcommand_from format' -s h -l help -d 'Print help'
complete -c lfsed -n '__lfsed_at pack 0' -F
complete -c lfsed -n '__lfsed_at pack 1' -a '(__fish_complete_directories)'
complete -c lfsed -n '__fish_seen_subcommand_from pack' -s b -l block -x -d 'Size of a block, a multiple of 16 from 256 to 65536 [default: 4096]'
complete -c lfsed -n '__fish_seen_subcommand_from pack' -l count -x -d 'Number of blocks, from 2 to 65536; at most 67108864 bytes in all'
complete -c lfsed -n '__fish_seen_subcommand_from pack' -l size -x -d 'Size of the image, in place of the number of blocks: 1048576, 0x100000, 1024k or 1M'
complete -c lfsed -n '__fish_seen_subcommand_from pack' -l least -d 'Give it the least number of blocks that holds the folder'
complete -c lfsed -n '__fish_seen_subcommand_from pack' -l inline-max -x -d 'Greatest length in bytes of a file that stands in its entry; never more than 1022 or an eighth of a block'
complete -c lfsed -n '__fish_seen_subcommand_from pack' -l name-max -x -d 'Greatest length of a name in bytes, from 1 to 1022 [default: 255]'
complete -c lfsed -n '__fish_seen_subcommand_from pack' -l file-max -x -d 'Greatest length of a file in bytes, from 1 to 2147483647 [default: 2147483647]'
complete -c lfsed -n '__fish_seen_subcommand_from pack' -l attr-max -x -d 'Greatest length of an attribute in bytes, from 1 to 1022 [default: 1022]'
complete -c lfsed -n '__fish_seen_subcommand_from pack' -l new -d 'Refuse to replace a file that is there'
complete -c lfsed -n '__fish_seen_subcommand_from pack' -s h -l help -d 'Print help'
complete -c lfsed -n '__lfsed_at repack 0' -F
complete -c lfsed -n '__lfsed_at repack 1' -F
complete -c lfsed -n '__fish_seen_subcommand_from repack' -s b -l block -x -d 'Size of a block, a multiple of 16 from 256 to 65536 [default: 4096]'
complete -c lfsed -n '__fish_seen_subcommand_from repack' -l from-block -x -d 'Size of a block of SOURCE, a multiple of 16 from 256 to 65536, or auto [default: auto]'
complete -c lfsed -n '__fish_seen_subcommand_from repack' -l count -x -d 'Number of blocks, from 2 to 65536; at most 67108864 bytes in all'
complete -c lfsed -n '__fish_seen_subcommand_from repack' -l size -x -d 'Size of the image, in place of the number of blocks: 1048576, 0x100000, 1024k or 1M'
complete -c lfsed -n '__fish_seen_subcommand_from repack' -l least -d 'Give it the least number of blocks that holds all of it'
complete -c lfsed -n '__fish_seen_subcommand_from repack' -l inline-max -x -d 'Greatest length in bytes of a file that stands in its entry; never more than 1022 or an eighth of a block'
complete -c lfsed -n '__fish_seen_subcommand_from repack' -l name-max -x -d 'Greatest length of a name in bytes, from 1 to 1022; that of SOURCE where it is not said'
complete -c lfsed -n '__fish_seen_subcommand_from repack' -l file-max -x -d 'Greatest length of a file in bytes, from 1 to 2147483647; that of SOURCE where it is not said'
complete -c lfsed -n '__fish_seen_subcommand_from repack' -l attr-max -x -d 'Greatest length of an attribute in bytes, from 1 to 1022; that of SOURCE where it is not said'
complete -c lfsed -n '__fish_seen_subcommand_from repack' -l new -d 'Refuse to replace a file that is there'
complete -c lfsed -n '__fish_seen_subcommand_from repack' -l device -d 'Read the image as a device does: also disk version 2.1, and a superblock that was expanded'
complete -c lfsed -n '__fish_seen_subcommand_from repack' -l offset -x -d 'Place in SOURCE at which the image begins: 1114112, 0x110000, 1088k or 1M'
complete -c lfsed -n '__fish_seen_subcommand_from repack' -l older -d 'Go on with the state before commits of a later disk version, which are not read'
complete -c lfsed -n '__fish_seen_subcommand_from repack' -s h -l help -d 'Print help'
complete -c lfsed -n '__lfsed_at find 0' -F
complete -c lfsed -n '__fish_seen_subcommand_from find' -l device -d 'Read the image as a device does: also disk version 2.1, and a superblock that was expanded'
complete -c lfsed -n '__fish_seen_subcommand_from find' -l json -d 'Print an object of JSON a line'
complete -c lfsed -n '__fish_seen_subcommand_from find' -s h -l help -d 'Print help'
complete -c lfsed -n '__lfsed_at extract 0' -F
complete -c lfsed -n '__lfsed_at extract 1' -a '(__fish_complete_directories)'
complete -c lfsed -n '__lfsed_at extract 2' -a '(__lfsed_paths)'
complete -c lfsed -n '__fish_seen_subcommand_from extract' -s b -l block -x -d 'Size of a block, a multiple of 16 from 256 to 65536, or auto [default: 4096]'
complete -c lfsed -n '__fish_seen_subcommand_from extract' -l device -d 'Read the image as a device does: also disk version 2.1, and a superblock that was expanded'
complete -c lfsed -n '__fish_seen_subcommand_from extract' -l offset -x -d 'Place in the file at which the image begins: 1114112, 0x110000, 1088k or 1M'
complete -c lfsed -n '__fish_seen_subcommand_from extract' -l older -d 'Go on with the state before commits of a later disk version, which are not read'
complete -c lfsed -n '__fish_seen_subcommand_from extract' -s h -l help -d 'Print help'
complete -c lfsed -n '__lfsed_at salvage 0' -F
complete -c lfsed -n '__lfsed_at salvage 1' -a '(__fish_complete_directories)'
complete -c lfsed -n '__fish_seen_subcommand_from salvage' -s b -l block -x -d 'Size of a block, a multiple of 16 from 256 to 65536, or auto [default: 4096]'
complete -c lfsed -n '__fish_seen_subcommand_from salvage' -l device -d 'Read the image as a device does: also disk version 2.1, and a superblock that was expanded'
complete -c lfsed -n '__fish_seen_subcommand_from salvage' -l offset -x -d 'Place in the file at which the image begins: 1114112, 0x110000, 1088k or 1M'
complete -c lfsed -n '__fish_seen_subcommand_from salvage' -l older -d 'Go on with the state before commits of a later disk version, which are not read'
complete -c lfsed -n '__fish_seen_subcommand_from salvage' -s h -l help -d 'Print help'
complete -c lfsed -n '__lfsed_at check 0' -F
complete -c lfsed -n '__fish_seen_subcommand_from check' -s b -l block -x -d 'Size of a block, a multiple of 16 from 256 to 65536, or auto [default: 4096]'
complete -c lfsed -n '__fish_seen_subcommand_from check' -l inline-max -x -d 'List the files that stand in their entries and are longer than this, in bytes; status 1 if there are some'
complete -c lfsed -n '__fish_seen_subcommand_from check' -l json -d 'Print an object of JSON a line'
complete -c lfsed -n '__fish_seen_subcommand_from check' -l device -d 'Read the image as a device does: also disk version 2.1, and a superblock that was expanded'
complete -c lfsed -n '__fish_seen_subcommand_from check' -l offset -x -d 'Place in the file at which the image begins: 1114112, 0x110000, 1088k or 1M'
complete -c lfsed -n '__fish_seen_subcommand_from check' -l older -d 'Go on with the state before commits of a later disk version, which are not read'
complete -c lfsed -n '__fish_seen_subcommand_from check' -s h -l help -d 'Print help'
complete -c lfsed -n '__lfsed_at ls 0' -F
complete -c lfsed -n '__lfsed_at ls 1' -a '(__lfsed_paths)'
complete -c lfsed -n '__fish_seen_subcommand_from ls' -s b -l block -x -d 'Size of a block, a multiple of 16 from 256 to 65536, or auto [default: 4096]'
complete -c lfsed -n '__fish_seen_subcommand_from ls' -l sha256 -d 'Print the SHA-256 of each file\'s contents too'
complete -c lfsed -n '__fish_seen_subcommand_from ls' -l json -d 'Print an object of JSON a line'
complete -c lfsed -n '__fish_seen_subcommand_from ls' -l device -d 'Read the image as a device does: also disk version 2.1, and a superblock that was expanded'
complete -c lfsed -n '__fish_seen_subcommand_from ls' -l offset -x -d 'Place in the file at which the image begins: 1114112, 0x110000, 1088k or 1M'
complete -c lfsed -n '__fish_seen_subcommand_from ls' -l older -d 'Go on with the state before commits of a later disk version, which are not read'
complete -c lfsed -n '__fish_seen_subcommand_from ls' -s h -l help -d 'Print help'
complete -c lfsed -n '__lfsed_at blocks 0' -F
complete -c lfsed -n '__fish_seen_subcommand_from blocks' -s b -l block -x -d 'Size of a block, a multiple of 16 from 256 to 65536, or auto [default: 4096]'
complete -c lfsed -n '__fish_seen_subcommand_from blocks' -l sum -d 'Print how many blocks each path takes, with all that is below it'
complete -c lfsed -n '__fish_seen_subcommand_from blocks' -l json -d 'Print an object of JSON a line'
complete -c lfsed -n '__fish_seen_subcommand_from blocks' -l device -d 'Read the image as a device does: also disk version 2.1, and a superblock that was expanded'
complete -c lfsed -n '__fish_seen_subcommand_from blocks' -l offset -x -d 'Place in the file at which the image begins: 1114112, 0x110000, 1088k or 1M'
complete -c lfsed -n '__fish_seen_subcommand_from blocks' -l older -d 'Go on with the state before commits of a later disk version, which are not read'
complete -c lfsed -n '__fish_seen_subcommand_from blocks' -s h -l help -d 'Print help'
complete -c lfsed -n '__lfsed_at cat 0' -F
complete -c lfsed -n '__lfsed_at cat 1' -a '(__lfsed_paths)'
complete -c lfsed -n '__fish_seen_subcommand_from cat' -s b -l block -x -d 'Size of a block, a multiple of 16 from 256 to 65536, or auto [default: 4096]'
complete -c lfsed -n '__fish_seen_subcommand_from cat' -l device -d 'Read the image as a device does: also disk version 2.1, and a superblock that was expanded'
complete -c lfsed -n '__fish_seen_subcommand_from cat' -l offset -x -d 'Place in the file at which the image begins: 1114112, 0x110000, 1088k or 1M'
complete -c lfsed -n '__fish_seen_subcommand_from cat' -l older -d 'Go on with the state before commits of a later disk version, which are not read'
complete -c lfsed -n '__fish_seen_subcommand_from cat' -s h -l help -d 'Print help'
complete -c lfsed -n '__lfsed_at diff 0' -F
complete -c lfsed -n '__lfsed_at diff 1' -F
complete -c lfsed -n '__fish_seen_subcommand_from diff' -s b -l block -x -d 'Size of a block, a multiple of 16 from 256 to 65536, or auto [default: 4096]'
complete -c lfsed -n '__fish_seen_subcommand_from diff' -l quiet -d 'Print nothing; the status says whether the images differ'
complete -c lfsed -n '__fish_seen_subcommand_from diff' -l json -d 'Print an object of JSON a line'
complete -c lfsed -n '__fish_seen_subcommand_from diff' -l device -d 'Read the image as a device does: also disk version 2.1, and a superblock that was expanded'
complete -c lfsed -n '__fish_seen_subcommand_from diff' -l offset -x -d 'Place in the file at which the image begins: 1114112, 0x110000, 1088k or 1M'
complete -c lfsed -n '__fish_seen_subcommand_from diff' -l older -d 'Go on with the state before commits of a later disk version, which are not read'
complete -c lfsed -n '__fish_seen_subcommand_from diff' -s h -l help -d 'Print help'
complete -c lfsed -n '__lfsed_at log 0' -F
complete -c lfsed -n '__fish_seen_subcommand_from log' -s b -l block -x -d 'Size of a block, a multiple of 16 from 256 to 65536, or auto [default: 4096]'
complete -c lfsed -n '__fish_seen_subcommand_from log' -l json -d 'Print an object of JSON a line'
complete -c lfsed -n '__fish_seen_subcommand_from log' -l older -d 'Go on with the state before commits of a later disk version, which are not read'
complete -c lfsed -n '__fish_seen_subcommand_from log' -s h -l help -d 'Print help'
complete -c lfsed -n '__lfsed_at mkdir 0' -F
complete -c lfsed -n '__lfsed_at mkdir 1' -a '(__lfsed_paths)'
complete -c lfsed -n '__fish_seen_subcommand_from mkdir' -s b -l block -x -d 'Size of a block, a multiple of 16 from 256 to 65536, or auto [default: 4096]'
complete -c lfsed -n '__fish_seen_subcommand_from mkdir' -s p -l parents -d 'Make the directories above it too where they lack, as one change'
complete -c lfsed -n '__fish_seen_subcommand_from mkdir' -l keep -x -d 'Number of the latest changes that are kept, from 1 to 1000; all where it is not said'
complete -c lfsed -n '__fish_seen_subcommand_from mkdir' -s h -l help -d 'Print help'
complete -c lfsed -n '__lfsed_at put 0' -F
complete -c lfsed -n '__lfsed_at put 1' -a '(__lfsed_paths)'
complete -c lfsed -n '__fish_seen_subcommand_from put' -s b -l block -x -d 'Size of a block, a multiple of 16 from 256 to 65536, or auto [default: 4096]'
complete -c lfsed -n '__fish_seen_subcommand_from put' -l from -r -F -d 'File that the contents are read from, in place of standard input'
complete -c lfsed -n '__fish_seen_subcommand_from put' -s p -l parents -d 'Make the directories above it too where they lack, as one change'
complete -c lfsed -n '__fish_seen_subcommand_from put' -l inline-max -x -d 'Greatest length in bytes of a file that stands in its entry; never more than 1022 or an eighth of a block'
complete -c lfsed -n '__fish_seen_subcommand_from put' -l keep -x -d 'Number of the latest changes that are kept, from 1 to 1000; all where it is not said'
complete -c lfsed -n '__fish_seen_subcommand_from put' -s h -l help -d 'Print help'
complete -c lfsed -n '__lfsed_at rm 0' -F
complete -c lfsed -n '__lfsed_at rm 1' -a '(__lfsed_paths)'
complete -c lfsed -n '__fish_seen_subcommand_from rm' -s b -l block -x -d 'Size of a block, a multiple of 16 from 256 to 65536, or auto [default: 4096]'
complete -c lfsed -n '__fish_seen_subcommand_from rm' -s r -l recursive -d 'Remove a directory with all that is below it, as one change'
complete -c lfsed -n '__fish_seen_subcommand_from rm' -l keep -x -d 'Number of the latest changes that are kept, from 1 to 1000; all where it is not said'
complete -c lfsed -n '__fish_seen_subcommand_from rm' -s h -l help -d 'Print help'
complete -c lfsed -n '__lfsed_at mv 0' -F
complete -c lfsed -n '__lfsed_at mv 1' -a '(__lfsed_paths)'
complete -c lfsed -n '__lfsed_at mv 2' -a '(__lfsed_paths)'
complete -c lfsed -n '__fish_seen_subcommand_from mv' -s b -l block -x -d 'Size of a block, a multiple of 16 from 256 to 65536, or auto [default: 4096]'
complete -c lfsed -n '__fish_seen_subcommand_from mv' -l keep -x -d 'Number of the latest changes that are kept, from 1 to 1000; all where it is not said'
complete -c lfsed -n '__fish_seen_subcommand_from mv' -s h -l help -d 'Print help'
complete -c lfsed -n '__lfsed_at setattr 0' -F
complete -c lfsed -n '__lfsed_at setattr 1' -a '(__lfsed_paths)'
complete -c lfsed -n '__fish_seen_subcommand_from setattr' -s b -l block -x -d 'Size of a block, a multiple of 16 from 256 to 65536, or auto [default: 4096]'
complete -c lfsed -n '__fish_seen_subcommand_from setattr' -l keep -x -d 'Number of the latest changes that are kept, from 1 to 1000; all where it is not said'
complete -c lfsed -n '__fish_seen_subcommand_from setattr' -s h -l help -d 'Print help'
complete -c lfsed -n '__lfsed_at rmattr 0' -F
complete -c lfsed -n '__lfsed_at rmattr 1' -a '(__lfsed_paths)'
complete -c lfsed -n '__fish_seen_subcommand_from rmattr' -s b -l block -x -d 'Size of a block, a multiple of 16 from 256 to 65536, or auto [default: 4096]'
complete -c lfsed -n '__fish_seen_subcommand_from rmattr' -l keep -x -d 'Number of the latest changes that are kept, from 1 to 1000; all where it is not said'
complete -c lfsed -n '__fish_seen_subcommand_from rmattr' -s h -l help -d 'Print help'
complete -c lfsed -n '__lfsed_at grow 0' -F
complete -c lfsed -n '__fish_seen_subcommand_from grow' -s b -l block -x -d 'Size of a block, a multiple of 16 from 256 to 65536, or auto [default: 4096]'
complete -c lfsed -n '__fish_seen_subcommand_from grow' -l size -x -d 'Size of the image, in place of the number of blocks: 1048576, 0x100000, 1024k or 1M'
complete -c lfsed -n '__fish_seen_subcommand_from grow' -l keep -x -d 'Number of the latest changes that are kept, from 1 to 1000; all where it is not said'
complete -c lfsed -n '__fish_seen_subcommand_from grow' -s h -l help -d 'Print help'
complete -c lfsed -n '__lfsed_at sync 0' -F
complete -c lfsed -n '__lfsed_at sync 1' -a '(__fish_complete_directories)'
complete -c lfsed -n '__lfsed_at sync 2' -a '(__lfsed_paths)'
complete -c lfsed -n '__fish_seen_subcommand_from sync' -s b -l block -x -d 'Size of a block, a multiple of 16 from 256 to 65536, or auto [default: 4096]'
complete -c lfsed -n '__fish_seen_subcommand_from sync' -l inline-max -x -d 'Greatest length in bytes of a file that stands in its entry; never more than 1022 or an eighth of a block'
complete -c lfsed -n '__fish_seen_subcommand_from sync' -l keep -x -d 'Number of the latest changes that are kept, from 1 to 1000; all where it is not said'
complete -c lfsed -n '__fish_seen_subcommand_from sync' -s h -l help -d 'Print help'
complete -c lfsed -n '__lfsed_at undo 0' -F
complete -c lfsed -n '__fish_seen_subcommand_from undo' -s b -l block -x -d 'Size of a block, a multiple of 16 from 256 to 65536, or auto [default: 4096]'
complete -c lfsed -n '__fish_seen_subcommand_from undo' -l steps -x -d 'Number of changes, from 1 to 1000: all of them, or none where there are fewer [default: 1]'
complete -c lfsed -n '__fish_seen_subcommand_from undo' -l older -d 'Go on with the state before commits of a later disk version, which are not read'
complete -c lfsed -n '__fish_seen_subcommand_from undo' -s h -l help -d 'Print help'
complete -c lfsed -n '__lfsed_at redo 0' -F
complete -c lfsed -n '__fish_seen_subcommand_from redo' -s b -l block -x -d 'Size of a block, a multiple of 16 from 256 to 65536, or auto [default: 4096]'
complete -c lfsed -n '__fish_seen_subcommand_from redo' -l steps -x -d 'Number of changes, from 1 to 1000: all of them, or none where there are fewer [default: 1]'
complete -c lfsed -n '__fish_seen_subcommand_from redo' -l older -d 'Go on with the state before commits of a later disk version, which are not read'
complete -c lfsed -n '__fish_seen_subcommand_from redo' -s h -l help -d 'Print help'
complete -c lfsed -n '__lfsed_at forget 0' -F
complete -c lfsed -n '__fish_seen_subcommand_from forget' -s b -l block -x -d 'Size of a block, a multiple of 16 from 256 to 65536, or auto [default: 4096]'
complete -c lfsed -n '__fish_seen_subcommand_from forget' -l older -d 'Go on with the state before commits of a later disk version, which are not read'
complete -c lfsed -n '__fish_seen_subcommand_from forget' -s h -l help -d 'Print help'
complete -c lfsed -n '__lfsed_at adopt 0' -F
complete -c lfsed -n '__fish_seen_subcommand_from adopt' -s b -l block -x -d 'Size of a block, a multiple of 16 from 256 to 65536, or auto [default: 4096]'
complete -c lfsed -n '__fish_seen_subcommand_from adopt' -l replace -d 'Replace a journal that has changes, which adopt refuses else'
complete -c lfsed -n '__fish_seen_subcommand_from adopt' -l json -d 'Print an object of JSON a line'
complete -c lfsed -n '__fish_seen_subcommand_from adopt' -s h -l help -d 'Print help'
complete -c lfsed -n '__lfsed_at batch 0' -F
complete -c lfsed -n '__lfsed_at batch 1' -F
complete -c lfsed -n '__fish_seen_subcommand_from batch' -s b -l block -x -d 'Size of a block, a multiple of 16 from 256 to 65536, or auto [default: 4096]'
complete -c lfsed -n '__fish_seen_subcommand_from batch' -l one -d 'Make one change of all steps, which one undo takes back; undo, redo and forget are none of them'
complete -c lfsed -n '__fish_seen_subcommand_from batch' -l inline-max -x -d 'Greatest length in bytes of a file that stands in its entry; never more than 1022 or an eighth of a block'
complete -c lfsed -n '__fish_seen_subcommand_from batch' -l keep -x -d 'Number of the latest changes that are kept, from 1 to 1000; all where it is not said'
complete -c lfsed -n '__fish_seen_subcommand_from batch' -s h -l help -d 'Print help'
complete -c lfsed -n '__lfsed_at explain 0' -a '1 2 3 4 5 6 7 8 9 10 11 12 13 14 15 16 17 18 19 20 21 22 30 31 32 33 34 35 36 37 38 39 40 41 42 43 44 46 50 51 52 53 54 55 56 60 61 62 63 64 65 ImageLength BadGeometry NoValidCommit UnknownTag BadTag IncompleteEntry BadName BadSkipList NoSuperblock Version Geometry Limits OrderFault BlockRange BlockTwice MissingDirectory Orphan UnfinishedMove SuperblockElsewhere BadSize UnknownState DamagedCommit NotFound Exists NotADirectory IsADirectory NotEmpty BadPath NameTooLong FileTooLarge AttrTooLarge NoAttr IntoItself IsRoot EntryTooLarge NoSpace Memory BadCount JournalFormat JournalMismatch JournalImage NothingToUndo NothingToRedo JournalFull JournalHasChanges CannotRead CannotWrite HostEntry HostName BadHex BadLine'
complete -c lfsed -n '__fish_seen_subcommand_from explain' -l json -d 'Print an object of JSON a line'
complete -c lfsed -n '__fish_seen_subcommand_from explain' -s h -l help -d 'Print help'
