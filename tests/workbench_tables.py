"""The tables of tests/workbench: what is said of codes, reports and mistakes, and which events commute."""
KEY = '0' * 64

BASE = f'''snp 1
regions 1
guest 1 opened asid 1 iv 0 key {KEY}
page 8 of 1 at 0 4k valid 0 0 0
word 1 0 0x2007
word 2 0 0x3007
word 3 0 0x4007
word 4 0 0x8007
actor 1 cpu 1 vmpl 0 npt 1 flat
store 0x10 5
load 0x10
'''
HOST = 'actor 2 host\nstore 0x4000 0x9007\n'

# What is said of codes: the words of the command line, and what must stand in the answer.
CODES = [
    (['0x580000005'], 'nested page fault: present, user, RMP, final translation, private\n'),
    (['npf', '0x580000007'], 'nested page fault: present, write, user, RMP, final translation, private\n'),
    (['0x1580000007'], 'nested page fault: present, write, user, RMP, final translation, private, VMPL permissions\n'),
    (['0x500000004'], 'nested page fault: not present, user, final translation, private\n'),
    (['0x100000004'], 'nested page fault: not present, user, final translation, shared\n'),
    (['0x180000007'], 'a shared access, row 1 "assigned"'),
    (['0x600000006'], 'nested page fault: not present, write, user, guest table, private\n'),
    (['0x600000007'], 'nested page fault: present, write, user, guest table, private\n'),
    (['0x680000007'], 'nested page fault: present, write, user, RMP, guest table, private\n'),
    (['0x1680000007'], 'guest table, private, VMPL permissions\n'),
    (['0xd80000005'], 'private, another page size\n'),
    (['0x580000008'], 'no fault of the model has this code'),
    (['0x1580000007'], 'goes to: the hypervisor'),
    (['0x404'],
     'vc 0x404: #VC: the page isn\'t validated\n  goes to: the guest itself\n  decided by: a private access, row 5 "not validated"'),
    (['0x80000003'], 'pf 0x80000003 behind `host`: page fault of the hypervisor: present, write, RMP'),
    (['pf', '0x0'], 'page fault of the guest\'s own tables: not present\n  goes to: the guest itself'),
    (['pf', '0x2'], 'not present, write\n'),
    (['pf', '0x3'], 'present, write\n'),
    (['rc', '4'], 'FAIL_OVERLAP'),
    (['fw', '0x1a'], 'INVALID_PAGE_STATE'),
    (['fw', '0x2'], 'decided by: the lock of a context, row 4 "the guest\'s state or its binding isn\'t as the command asks"'),
    (['fw', '0x16'], '    the lock of a context, row 7 "`launch_update`: the page type isn\'t 1, 3 or 4"'),
    (['fw 0x100 by 3'], '    the lock of a page, row 2 "the frame\'s page is locked"'),
    (['offline'], 'offline: the guest isn\'t running'),
    (['rc', '3', 'fw', '0x100'], 'PAGE_IN_USE'),
    (['rc', '4'], 'decided by: RMPUPDATE, row 3 "4 KB, and F is in a 2 MB page; 2 MB, the range is no 2 MB page'),
    (['rc', '2'], '    PSMASH, row 4 "F is immutable"'),
    (['rc 3 by 2'], '    PSMASH, row 2 "F\'s page is locked"'),
    (['rc 3 by 2'], 'held by: actor 2'),
    (['status', '8'], 'an entry of the schedule names an actor that is missing or finished'),
    (['error schedule 6 1'], 'entry 6 of the schedule, counted from 0, names actor 1'),
    (['error', 'scenario', '11', 'cut'], 'line 11: the last line has no line feed'),
    (['error limit attempts 8193 8192'], 'it would have 8193 attempts, and the most is 8192'),
]

# What is said of a scenario and its stored report.
EXPLAINED = [
    ('page_of_another_address', ['because: frame 9 is page 1 of guest 1, and page 0 was asked', 'a private access, row 2 "another gpn"',
                                 'goes to: the hypervisor']),
    ('remapped_between_two_loads', ['frame 9 is nobody\'s, and the access is of guest 1', 'row 1 "not assigned, or another ASID"']),
    ('page_of_another_guest', ['frame 8 is page 0 of guest 1, and the access is of guest 2']),
    ('large_nested_leaf', ['row 4 "of size 4 KB, and the leaf is of 2 MB"']),
    ('unvalidated_page', ['row 5 "not validated"', 'goes to: the guest itself']),
    ('write_without_permission', ['row 6 "the VMPL\'s permissions lack', 'VMPL1 has the permissions 1, and `store` needs bit 1']),
    ('host_store_to_a_guest_page', ['an access of the hypervisor, row 1 "assigned"', 'goes to: the hypervisor itself']),
    ('host_load_of_a_guest_page', ['an access of the hypervisor, row 2 "assigned"', 'the word stays hidden']),
    ('shared_page', ['a shared access, row 2 "assigned"']),
    ('unmapped_page', ['a nested walk, "bit 0 (present) is clear, or the frame below is outside memory"', 'the word 0x0 has bit 0 clear']),
    ('guest_table_remapped_between_two_walks', ['the RMP refused the read', 'nested page fault: present, write, user, RMP, guest table']),
    ('entry_outside_memory', ['is outside memory, which has 512 frames']),
    ('entry_without_user', ['a nested walk, "bit 2 (user) is clear"']),
    ('entry_without_write', ['a nested walk, "bit 1 (writable) is clear, and the access writes']),
    ('guest_entry_that_is_not_present', ['a guest walk, "bit 0 (present) is clear"', 'goes to: the guest itself']),
    ('guest_entry_without_write', ['a guest walk, "bit 1 (writable) is clear, and the access writes"']),
    ('assigned_table_reads_as_zero', ['so that the walker reads 0 there']),
    ('exchanges_of_an_unvalidated_page', ['row 5 "not validated"']),
    ('page_taken_under_a_walk', ['frame 8 is nobody\'s, and the access is of guest 1; event 6, `rmpupdate 8 4k 0 0 0 0` of actor 2, changed']),
    ('large_page_split_under_a_guest', ['a page of 4 KB, and the nested leaf is of 2 MB; event 6, `psmash 512` of actor 2, changed the entry']),
    ('page_moved_to_another_guest', ['the lock of a page, row 5 "the command asks for a page of the guest, and the page\'s ASID is another"',
                                     'frame 9 is page 0 of guest 2, not validated, immutable, and the command is for guest 1']),
    ('update_of_a_page_that_firmware_has', ['actor 2 holds the lock of frame 8, which event 2 took for `page_reclaim 8`',
                                            'the lock of a page, row 2 "the frame\'s page is locked"', 'retry 1 of 1',
                                            'frame 8 is in the state Hypervisor, which `page_reclaim` doesn\'t take there: it takes Firmware']),
    ('contexts_of_launch_commands', ['row 1 "the guest isn\'t declared"', 'because: guest 8 isn\'t declared',
                                     'actor 2 holds the lock of the context of guest 1, which event', 'row 3 "the context is locked"',
                                     'guest 1 is init, and not bound to its ASID; `launch_finish` asks for one that is launching and bound',
                                     'row 5 "`activate`: the ASID is that of another declared guest"', 'the ASID 3 is that of guest 3',
                                     'the ASID 1023 is asked, and guest 1 has 1', 'row 7 "`launch_update`: the page type isn\'t 1, 3 or 4"']),
    ('contexts_of_page_move', ['row 2 "two of the command\'s frames are equal, as they are given"', 'because: frame 512 stands twice']),
    ('pages_of_page_move', ['row 1 "the frame isn\'t in memory"', 'frame 1536 is outside memory, which has 1536 frames',
                            'row 3 "the page is of 2 MB, and the command isn\'t `page_reclaim`"',
                            'frame 10 is in the state Guest-Valid, which `page_move` doesn\'t take there: it takes Pre-Swap']),
    ('page_changed_on_disk', ['the compute, row 1 "`swap_in`, `md_in` and `md_root_in`: the tags differ"',
                              'frame 11 had the ciphertext that event 16 sealed, and words of it were written since',
                              'frame 8 is the firmware\'s (Reclaim), and the access is of guest 1; event 17, `swap_out 1 8 11 10 0` of actor 3']),
    ('old_ciphertext_under_a_newer_entry', [
        'frame 11 has the ciphertext that event 16 sealed for guest 1 under counter 0, and entry 0 of frame 10 is for the one that event 41']),
    ('ciphertext_of_another_entry', [
        'frame 11 has the ciphertext that event 12 sealed for guest 1 under counter 0, and entry 1 of frame 10 is for the one that event 18',
        'frame 13 is page 1 of guest 1, and page 0 was asked; event 34, `page_reclaim 13` of actor 3, changed the entry last']),
    ('metadata_page_under_the_root', ['row 9 "`md_root_out`: the root is in use"', 'row 10 "`md_root_in`: the root isn\'t in use"',
                                      'the root of guest 1 is that of a metadata page of guest 1, under counter 1',
                                      'frame 10 is in the state Firmware, which `swap_in` doesn\'t take there: it takes Metadata']),
    ('contexts_of_md_root_out', ['row 8 "`swap_out`, `md_out` and `md_root_out`: the guest\'s counter is at its end"',
                                 'the counter of guest 5 is 18446744073709551615']),
    ('pages_of_md_out', ['row 6 "the source of `md_out` and `md_root_out`: an entry in use is another guest\'s"',
                         'because: entry 63 there is that of guest 2', 'row 7 "the metadata page of `swap_out` and `md_out`: the entry is in use"',
                         'because: entry 0 of frame 15 is that of a metadata page of guest 1, under counter 2']),
    ('pages_of_swap_in', ['row 8 "the metadata page of `swap_in` and `md_in`: the entry isn\'t in use, or is of another kind"',
                          'entry 1 of frame 15 isn\'t in use', 'entry 4 of frame 15 is that of a metadata page of guest 2, under counter 1',
                          'row 9 "the metadata page of `swap_in` and `md_in`: the entry is another guest\'s"',
                          'entry 3 of frame 15 is that of page 0x18 of guest 2, under counter 0, and the command is for guest 1']),
    ('foreign_metadata_that_meets_a_tag', ['row 2 "`md_in` and `md_root_in`: the opened page has an entry in use of another guest"',
                                           'because: entry 0 there is that of guest 2']),
    ('race_for_one_entry', ['RMPUPDATE, row 2 "a frame of the range is locked"',
                            'actor 1 holds it; the item is attempted again, retry 1 of 1\n',
                            'actor 1 holds the lock of frame 9, which event 0 took for `rmpupdate 9 4k 1 1 3 0`',
                            'actor 2 holds the lock of frame 9, which event 3 took for `rmpupdate 9 4k 1 1 4 0 retry 1`']),
    ('updates_and_their_refusals', [
        'frame 1024 is outside memory, which has 1024 frames', 'RMPUPDATE, row 1 "2 MB, and F is no multiple of 512"',
        'RMPUPDATE, row 1 "2 MB, assigned, and the gpn is no multiple of 512 or the ASID is 0"',
        'the page is to be free, and an ASID is asked', 'the page is to be free, and Immutable is asked',
        'RMPUPDATE, row 1 "assigned, the ASID is 0, and the gpn isn\'t 0"', '4 KB are asked, and frame 515 is page 0x203 of guest 1',
        '2 MB are asked, frames 0 to 511 are no page of 2 MB, and frame 8 is page 0 of guest 1',
        '2 MB are asked, frames 0 to 511 are no page of 2 MB, and frame 9 is page 9 of guest 1, not validated, immutable; event 12, `rmpupdate 9',
        'RMPUPDATE, row 4 "a frame of the range is immutable"', 'PSMASH, row 1 "F isn\'t in memory, or is no multiple of 512"',
        'PSMASH, row 3 "F is in no 2 MB page"', 'PSMASH, row 4 "F is immutable"']),
    ('large_page_split_and_freed', ['frame 512 is page 0x400 of guest 1, in a page of 4 KB; event 1, `psmash 512` of actor 1, changed the entry',
                                    'frames 512 to 1023 are no page of 2 MB, and frame 512 is page 0x400 of guest 1; event 1']),
    ('locks_of_ranges', ['actor 1 holds the lock of frame 515', 'attempt 2\n', 'actor 1 holds it; no retry is left, and the actor goes on',
                         'actor 3 holds the lock of frame 516']),
    ('lock_of_a_large_page', ['asks for the lock of frame 600; frame 600 is page 0x258 of guest 1, in a page of 2 MB',
                              'actor 1 holds the lock of frame 600, which event 0 took for `psmash 512`', 'PSMASH, row 2 "F\'s page is locked"']),
    ('smallest', ['no event of this report is a fault or a refusal']),
]

# What is said of single events: the scenario, the number, and what must stand in the answer.
EXPLAINED_EVENTS = [
    ('page_taken_under_a_walk', 5, ['takes the lock of frame 8; frame 8 is page 0 of guest 1']),
    ('page_taken_under_a_walk', 6, ['frame 8 becomes free; the words become zero; the lock is released']),
    ('page_taken_under_a_walk', 8, ['event 6, `rmpupdate 8 4k 0 0 0 0` of actor 2, took the frame from its owner, and its words became zero']),
    ('large_page_split_under_a_guest', 5, ['takes the lock of frames 512 to 1023; frame 512 is page 0x200 of guest 1, in a page of 2 MB']),
    ('large_page_split_under_a_guest', 6, ['frames 512 to 1023 become 512 pages of 4 KB, each with the page number that it had']),
    ('race_for_one_entry', 2, ['frame 9 becomes page 3 of guest 1, not validated; the words stay, since nobody owned them']),
    ('race_for_one_entry', 5, [', attempt 1\n', 'frame 9 becomes page 4 of guest 1, not validated; the words become zero']),
    ('region_assigned_and_freed', 0, ['takes the lock of frames 512 to 1023; they are nobody\'s']),
    ('region_assigned_and_freed', 1, ['frames 512 to 1023 become the page of 2 MB at page 0x400 of guest 1, not validated']),
    ('region_assigned_and_freed', 5, ['frames 512 to 1023 become free; the words become zero']),
    ('updates_and_their_refusals', 12, ['frame 9 becomes page 9 of guest 1, not validated, immutable']),
    ('launch_of_three_pages', 10, ['frame 20 becomes the context page of guest 1, which is now in the state init']),
    ('launch_of_three_pages', 12, ['the launch of guest 1 begins; the locks are released']),
    ('launch_of_three_pages', 13, ['takes the lock of the context of guest 1; guest 1 is launching, and not bound to its ASID']),
    ('launch_of_three_pages', 14, ['guest 1 is bound to its ASID 1']),
    ('launch_of_three_pages', 16, ['locks the page of frame 8; frame 8 is page 0 of guest 1, not validated, immutable (Pre-Guest)']),
    ('launch_of_three_pages', 17, ['launched as page 0 of guest 1, of the type NORMAL: its words are measured', 'permissions 15, 1, 0, 0']),
    ('launch_of_three_pages', 20, ['of the type ZERO: its words become zero']),
    ('launch_of_three_pages', 23, ['of the type UNMEASURED: the digest tells its place and permissions alone', 'permissions 15, 3, 1, 0']),
    ('launch_of_three_pages', 25, ['guest 1 runs from here on']),
    ('guest_that_starts_with_what_was_launched', 5, ['because: guest 1 is absent', 'goes to: nobody: the guest has no processor that runs']),
    ('guest_that_starts_with_what_was_launched', 17, ['because: guest 1 is launching']),
    ('guest_that_starts_with_what_was_launched', 30, ['because: the word is that of the opening']),
    ('guest_that_starts_with_what_was_launched', 36, ['`launch_update 1 9 3 0 0 0 0` of actor 3, launched the frame as a ZERO page, and its words']),
    ('page_moved_under_a_running_guest', 13, ['frame 9 becomes page 0 of guest 1, with the words and the entry of frame 8, which becomes an empty']),
    ('page_moved_under_a_running_guest', 15, ['frame 9 isn\'t immutable any more, and is Guest-Valid']),
    ('page_moved_under_a_running_guest', 22, ['event 13, `page_move 1 8 9` of actor 3, moved the words here from frame 8']),
    ('page_moved_under_a_running_guest', 31, ['and is Guest-Invalid: its guest has to accept it']),
    ('facts_of_reclaimed_pages', 86, ['a metadata page with zero words']),
    ('reclaim_of_a_large_page', 12, ['frame 515, and the whole page of 2 MB that it stands in, isn\'t immutable any more']),
    ('round_of_a_pager', 11, ['the words of frame 8 are copied and sealed, under counter 0 of guest 1']),
    ('round_of_a_pager', 12, ['frame 20 gets the ciphertext; frame 8 becomes a page in the state Reclaim, with zero words; entry 0 of frame 10',
                              'the counter of guest 1 is now 1']),
    ('round_of_a_pager', 37, ['the words of frame 20 are copied and opened; entry 0 of frame 10 is that of page 0 of guest 1, under counter 0']),
    ('round_of_a_pager', 38, ['frame 8 becomes page 0 of guest 1 again (Pre-Swap)', 'entry 0 of frame 10 is cleared']),
    ('round_of_a_pager', 47, ['`swap_in 1 20 8 10 0` of actor 3, opened the page here from frame 20, with the words that frame 8 had as event 11']),
    ('metadata_page_under_the_root', 18, ['frame 10 is a Firmware page again, with zero words; the root of guest 1 is written']),
    ('metadata_page_under_the_root', 38, ['frame 15 is the metadata page that was sealed; the root of guest 1 is cleared']),
    ('swap_of_an_unvalidated_page', 19, ['frame 9 becomes page 0 of guest 1 again (Pre-Guest)']),
    ('words_of_a_swapped_page', 24, ['`swap_out 1 8 11 10 0` of actor 3, put the ciphertext of the page of frame 8 here']),
    ('foreign_ciphertext_that_meets_a_tag', 21, ['a foreign ciphertext meets this tag: what is promised of the guest\'s memory ends here']),
    ('updates_and_their_refusals', 18, ['frames 512 to 1023 become immutable; all else stays, the words too']),
    ('words_of_updated_frames', 9, ['frame 20 becomes the firmware\'s (Reclaim); the words stay']),
]

# Reports that can't be of their scenario: the scenario, a part of its report, what stands there instead, and what is said.
MISFITS = [
    ('race_for_one_entry', '1 2 0.0 lock 9 rc 3 by 1\n', '1 2 0.0 lock 9\n', 'this should be `rc 3 by 1`'),
    ('race_for_one_entry', '1 2 0.0 lock 9 rc 3 by 1\n', '1 2 0.0 lock 9 rc 3 by 3\n', 'this should be `rc 3 by 1`'),
    ('race_for_one_entry', '0 1 0.0 lock 9\n', '0 1 0.0 lock 9 rc 2\n', 'this should be let through'),
    ('race_for_one_entry', '0 1 0.0 lock 9\n', '0 1 0.0 lock 8\n', 'this should be the lock of frame 9'),
    ('race_for_one_entry', '2 1 0.0 commit 9 0x3 4k rc 0\n', '2 1 0.0 commit 9 0x4 4k rc 0\n', 'this should be `commit 9 0x3 4k rc 0`'),
    ('race_for_one_entry', '2 1 0.0 commit 9 0x3 4k rc 0\n', '2 1 0.0 lock 9\n', 'this should be a `commit`'),
    ('race_for_one_entry', '0 1 0.0 lock 9\n', '0 1 0.0 commit 9 0x3 4k rc 0\n', 'this should be a `lock`'),
    ('race_for_one_entry', '4 1 1.0 lock 9', '4 1 1.1 lock 9', 'has 0 retries, and this is attempt 1'),
    ('page_taken_under_a_walk', 'host 8:2 load 0x0', 'host 8:2 load 0x7', 'this word should be 0x0'),
    ('page_taken_under_a_walk', 'npf 0x580000005', 'load 0x7', 'this should be `npf 0x580000005`'),
    ('large_page_split_and_freed', 'commit 512 0x400 2m', 'commit 512 0x0 2m', 'this should be `commit 512 0x400 2m rc 0`'),
    ('large_page_split_and_freed', 'lock 512 rc 4', 'lock 512 rc 2', 'this should be `rc 4`'),
    ('page_moved_to_another_guest', 'lock 9 fw 0x1c', 'lock 9 fw 0x1a', 'this should be `fw 0x1c`'),
    ('page_moved_to_another_guest', 'lock 9 fw 0x1c', 'lock 9', 'this should be `fw 0x1c`'),
    ('page_moved_to_another_guest', '7 2 0.0 lock 8', '7 2 0.0 lock 9', 'this should be `lock 8`'),
    ('page_moved_to_another_guest', '6 2 0.0 lockg 1', '6 2 0.0 lockg 2', 'this should be `lockg 1`'),
    ('page_moved_to_another_guest', '6 2 0.0 lockg 1', '6 2 0.0 lock 8', 'this should be `lockg 1`'),
    ('page_moved_under_a_running_guest', 'commit 9 0x0 4k fw 0x0', 'commit 8 0x0 4k fw 0x0', 'this should be `commit 9 0x0 4k fw 0x0`'),
    ('page_moved_under_a_running_guest', '12 3 0.0 lock 9', '12 3 0.0 commit 9 0x0 4k fw 0x0', 'this should be `lock 9`'),
    ('launch_of_three_pages', '25 2 6.0 commitg 1 fw 0x0', '25 2 6.0 lock 8', 'this should be the commit'),
    ('launch_of_three_pages', '24 2 6.0 lockg 1', '24 2 6.0 lockg 1 fw 0x2', 'this should be let through'),
    ('guest_that_starts_with_what_was_launched', '0x1:0 9 p load 0x0', '0x1:0 9 p load 0x9', 'this word should be 0x0'),
    ('round_of_a_pager', '0x0:2 8 p load 0x5', '0x0:2 8 p load 0x6', 'this word should be 0x5'),
    ('round_of_a_pager', '11 3 1.0 compute\n', '11 3 1.0 commit 8 0x0 4k fw 0x0\n', 'this should be `compute`'),
    ('round_of_a_pager', '12 3 1.0 commit 8 0x0 4k fw 0x0\n', '12 3 1.0 commit 20 0x0 4k fw 0x0\n', 'this should be `commit 8 0x0 4k fw 0x0`'),
    ('round_of_a_pager', 'commit 8 0x1 4k fw 0x0', 'commit 8 0x0 4k fw 0x0', 'this should be `commit 8 0x1 4k fw 0x0`'),
    ('page_changed_on_disk', 'fw 0xb found 690e', 'fw 0xb found 691e', 'this should be `fw 0xb found 690eff2f3be4d2b9c11b7d51a8556f2a kept'),
    ('page_changed_on_disk', '31 3 2.0 compute fw 0xb found 690eff2f3be4d2b9c11b7d51a8556f2a kept f68c49d0a3134366492b1a94c125cb02\n',
     '31 3 2.0 compute\n', 'this should be `fw 0xb found'),
    ('page_changed_on_disk', '37 3 3.0 compute\n', '37 3 3.0 compute fw 0x1c\n', 'this should be let through'),
    ('words_of_a_swapped_page', 'host 11:511 load 0x9047381d870d3e61', 'host 11:511 load 0x9047381d870d3e60', 'should be 0x9047381d870d3e61'),
    ('metadata_page_under_the_root', '39 3 8.0 lockg 1 fw 0x1b', '39 3 8.0 lockg 1', 'this should be `fw 0x1b`'),
    ('contexts_of_swap_out', 'lockg 3 fw 0x1d', 'lockg 3', 'this should be `fw 0x1d`'),
]

# Commands that must be refused: arguments, input, and what must be said.
REFUSED = [
    (['frobnicate'], '', 'invalid choice'),
    (['explain'], '', 'required'),
    (['explain', 'examples/none.snp'], '', 'examples/none.snp: no such file or directory'),
    (['explain', 'examples'], '', 'examples: is a directory'),
    (['explain', '-', '-'], '', '`-` stands twice'),
    (['explain', '0x580000005', 'rc'], '', '`rc` is no code'),
    (['explain', 'rc', 'three'], '', '`three` should be a number'),
    (['explain', 'examples/smallest.snp', '-'], '', 'standard input:1: the report ends without its `end` line'),
    (['explain', 'examples/smallest.snp', '-'], 'error scenario 11 cut\n',
     'standard input:1: this is no report but the program\'s refusal'),
    (['explain', 'examples/smallest.snp', '-'], 'hello\n', 'standard input:1: a report begins with `snp-report 1`'),
    (['explain', 'examples/smallest.snp', '-'], 'snp-report 1\n0 1 0.0 begin\n2 1 0.0 begin\n',
     'standard input:3: this event should have the number 1'),
    (['explain', 'examples/smallest.snp', '-'], 'snp-report 1\n0 1 0.0 jump\n', 'standard input:2: `jump` is no deed'),
    (['explain', 'examples/smallest.snp', '-'], 'snp-report 1\n0 1 0.0 npt 4 5\n',
     'standard input:2: `4` should be a frame or page and an index'),
    (['explain', 'examples/smallest.snp', '-'], 'snp-report 1\nend 1\n',
     'standard input:2: the report ends with `end 1`, and has 0 events'),
    (['explain', '--event', '12', 'examples/smallest.snp', 'tests/cases/smallest.out'], '',
     'there is no event 12: the report has 12 events'),
    (['explain', '-', 'tests/cases/smallest.out'], 'snp 1\r\nregions 1\r\n',
     'standard input:1: this line has a carriage return'),
    (['explain', '-', 'tests/cases/smallest.out'], 'snp 1\nregions\t1\n', 'standard input:2: this line has a tab'),
    (['explain', '-', 'tests/cases/smallest.out'], '\ufeffsnp 1\n', 'standard input:1: this line has a byte order mark'),
    (['explain', '-', 'tests/cases/smallest.out'], 'snp 1\nregions  1\n',
     'standard input:2: this line has a leading, trailing or doubled space'),
    (['explain', '-', 'tests/cases/smallest.out'], 'snp 1\nregions 1', 'standard input:2: the last line has no line feed'),
    (['explain', '-', 'tests/cases/smallest.out'], BASE + 'jump 1\nend\n',
     'standard input:12: `jump` is no item of a guest\'s processor'),
    (['explain', '-', 'tests/cases/smallest.out'], BASE, 'standard input:12: the text ends without its line `end`'),
    (['explain', '-', 'tests/cases/smallest.out'], BASE + 'order 1*x\nend\n',
     'standard input:12: `1*x` is neither an actor nor an actor with its count'),
    (['brief', '-'], 'snp-report 1\n0 1 0.0 lock 9 rc 3 by\n', 'standard input:2: `rc 3 by` should be a status'),
    (['brief', '-'], 'snp-report 1\n0 1 0.0 lock 0x9\n', 'standard input:2: `0x9` should be a frame or a guest'),
    (['brief', '-'], 'snp-report 1\n0 1 0.0 commit 9 0x3 8k rc 0\n', 'standard input:2: `0x3 8k` should be a page and its size'),
    (['explain', 'rc 3 by'], '', '`by` is no code'),
    (['brief', '-'], 'snp-report 1\n0 1 0.0 begin\r\n', 'standard input:2: this line has a carriage return'),
    (['brief', '-'], 'snp-report 1\n0 1 0.0 begin\t\n', 'standard input:2: this line has a tab'),
    (['brief', '-'], '\ufeffsnp-report 1\n', 'standard input:1: this line has a byte order mark'),
    (['write', '-'], '', 'standard input: there is no line in this text'),
    (['write', '-'], BASE + 'frob 1\n', 'standard input:12: `frob` begins no line of a scenario'),
    (['write', '-'], BASE + 'load nowhere\n', 'standard input:12: `nowhere` is neither a number nor a named frame'),
    (['write', '-'], BASE + 'frame host 3\n', 'standard input:12: `host` can\'t be a name'),
    (['write', '-'], BASE + 'frame a 3\nframe a 4\n', 'standard input:13: `a` is named twice'),
    (['write', '-'], BASE + 'map 1 root 1 0x0 -> 9\n',
     'standard input:12: a map is `map GUEST root FRAME: PAGES -> FRAMES`'),
    (['write', '-'], BASE + 'map 2 root 1: 0x1 -> 9\n', 'standard input:12: guest 2 isn\'t declared'),
    (['write', '-'], BASE + 'map 1 root 1: 0x1..0x3 -> 9..10\n', 'standard input:12: 3 pages are mapped to 2 frames'),
    (['write', '-'], BASE + 'map 1 root 1: 0x3..0x1 -> 9..11\n', 'standard input:12: `0x3..0x1` goes backwards'),
    (['write', '-'], BASE + 'map 1 root 1: 0x1 -> 9\nmap 1 root 1: 0x1 -> 10\n',
     'standard input:13: page 0x1 is mapped twice'),
    (['write', '-'], BASE + 'load leaf(1,0x7)\n', 'standard input:12: no `map` line with root 1 has page 0x7'),
    (['write', '-'], BASE + 'load addr(1)\n', 'standard input:12: this should be `addr(FRAME,INDEX)`'),
    (['write', '-'], BASE + 'load jump(1)\n', 'standard input:12: `jump` is no call'),
    (['write', '-'], BASE + 'page 512..1023 of 1 at 0x200 2m\n', 'standard input:12: a page of 2 MB is told by the first of its frames'),
    (['write', '-'], BASE + 'map 1 root 1: 0x201 -> 512 2m\n', 'standard input:12: a map of 2 MB has the first page and the first frame'),
    (['write', '-'], BASE + HOST + 'rmpupdate 9 free immutable\n', 'standard input:14: this should be `rmpupdate F free`'),
    (['write', '-'], BASE + 'actor 2 fw\nlaunch_update 1 8 1\n', 'standard input:13: this should be `launch_update GUEST FRAMES`'),
    (['write', '-'], BASE + HOST + 'rmpupdate 9 of 1\n', 'standard input:14: this should be `rmpupdate F free`'),
    (['write', '-'], BASE + HOST + 'rmpupdate 9 of 2 at 3\n', 'standard input:14: guest 2 isn\'t declared'),
    (['write', '-'], BASE + 'order 1?\n', 'standard input:12: `1?` is no part of an order'),
    (['write', '-'], BASE.replace('\n', '\r\n'), 'standard input:1: this line has a carriage return at its end'),
    (['test', '-'], BASE + '# expect\nend\n', 'standard input:12: `expect` says nothing'),
    (['test', '-'], BASE + '# expect status eight\nend\n', 'standard input:12: `expect status` has one number'),
    (['test', '-'], BASE + '# expect no\nend\n', 'standard input:12: `expect no` has a line'),
    (['test', 'examples/smallest.snp'], '', '/no/such/program: there is no program of this name'),
    (['explore', '--most', '-1', 'examples/smallest.snp'], '', '--most should be 0 or more'),
    (['explore', '--until', ' ', '-', '--program', 'true'], BASE + 'end\n', '`--until` has a pattern of a report line'),
    (['explore', '-', '--program', 'true'], 'snp 1\nregions 1\nend\n',
     'standard input: no actor of this scenario has an item'),
    (['explore', '--after', '3', '-', '--program', 'true'], BASE + 'order 1*2\nend\n',
     'the order has 2 events, and --after asks for 3'),
    (['explore', '-', '--program', 'true'], BASE + 'end\n', 'the program answered'),
    (['view', 'examples/smallest.snp', 'tests/cases/none.out'], '', 'tests/cases/none.out: no such file or directory'),
]

# Patterns of lines, a line, and whether the pattern fits.
PATTERNS = [
    ('...', 'a b', True), ('...', '', True), ('... npf *', '1 2 npf 0x5', True), ('... npf *', 'npf 0x5', True), ('npf ...', 'npf', True),
    ('npf ...', 'npf 1 2', True), ('* 1 ... npf 0x58*', '5 1 0.0 data npf 0x580005', True), ('* 1 ...', '5 11 0', False),
    ('a ... b', 'a b', True), ('a ... b', 'a c d b', True), ('a ... b', 'ac b', False), ('... b', 'ab', False), ('... b', 'c b', True),
    ('a', 'a b', False), ('* *', 'a', False), ('a.c', 'abc', False), ('guest 1 running -', 'guest 1 running -', True),
]

PLAIN = f'''# a comment
snp 1
regions 1
# frame decoy 100
# guest 1 opened asid 1
guest 1 opened asid 1 iv 0 key {KEY}
# page 64..65 of 1 at 0x0
page 64 of 1 at 0x0 4k valid 0 0 0
page 65 of 1 at 0x1 4k valid 0 0 0
# page decoy of 1 at 9 4k invalid 1 2 3
page 100 of 1 at 9 4k invalid 1 2 3
# map 1 root 1: 0x0..0x1 -> 64..65
word 1 0 0x2007
word 2 0 0x3007
word 3 0 0x4007
word 4 0 0x40007
word 4 1 0x41007
# map 1 root 1: 0x200 -> decoy read-only
word 3 1 0x5007
word 5 0 0x64005
actor 1 cpu 1 vmpl 0 npt 1 flat
load 0x10
actor 2 host
# store leaf(1,0x1) entry(decoy)
#   entry(decoy) sets bits 0 (present), 1 (writable) and 2 (user)
store 0x4008 0x64007
# load addr(decoy,2)
load 0x64010
# store addr(9,0) private(4)
#   private(4) sets bits 0 (present), 1 (writable) and 51 (private)
store 0x9000 0x8000000004003
# store addr(9,0) shared(4)
#   shared(4) sets bits 0 (present) and 1 (writable)
store 0x9000 0x4003
order 1*6 2
end
'''
SHORT_TEXT = '''# a comment
frame decoy 100
map 1 root 1: 0x0..0x1 -> 64..65
map 1 root 1: 0x200 -> decoy read-only
guest 1 opened asid 1
page 64..65 of 1 at 0x0
page decoy of 1 at 9 4k invalid 1 2 3
actor 1 cpu 1 vmpl 0 npt 1 flat
load 0x10
actor 2 host
store leaf(1,0x1) entry(decoy)
load addr(decoy,2)
store addr(9,0) private(4)
store addr(9,0) shared(4)
order 1*6 2
'''

PLAIN_UPDATES = f'''snp 1
regions 2
# frame big 2m
# guest 1 opened asid 7
guest 1 opened asid 7 iv 0 key {KEY}
# page big of 1 at 0x200 2m
page 512 of 1 at 0x200 2m valid 0 0 0
# map 1 root 1: 0x200 -> big 2m
word 1 0 0x2007
word 2 0 0x3007
word 3 1 0x200087
# map 1 root 1: 0x400 -> big 2m read-only
word 3 2 0x200085
actor 1 host
# psmash big
psmash 512
# rmpupdate 9 free retry 3
rmpupdate 9 4k 0 0 0 0 retry 3
# rmpupdate big free 2m
rmpupdate 512 2m 0 0 0 0
# rmpupdate 9 of 1 at 0x5 immutable
rmpupdate 9 4k 1 7 0x5 1
# rmpupdate big of 1 at 0x200 2m retry 1
rmpupdate 512 2m 1 7 0x200 0 retry 1
# rmpupdate big 2m 1 0x7 512 1
rmpupdate 512 2m 1 0x7 512 1
# store leaf(1,0x203) large(big)
#   large(big) sets bits 0 (present), 1 (writable), 2 (user) and 7 (a page of 2 MB)
store 0x3008 0x200087
end
'''

SHORT_LAUNCH = '''guest 1 new asid 3
frame context
actor 1 host
rmpupdate context firmware retry 2
rmpupdate 8 of 1 at 0 immutable
rmpupdate 9 of 1 at 1 immutable
actor 2 fw
gctx_create 1 context
launch_start 1
launch_update 1 8..9 retry 1
launch_update 1 8 3 0 1 0 0
page_move 1 8 context
'''
PLAIN_LAUNCH = f'''snp 1
regions 1
# frame context
# guest 1 new asid 3
guest 1 new asid 3 iv 0 key {KEY}
actor 1 host
# rmpupdate context firmware retry 2
rmpupdate 10 4k 1 0 0 1 retry 2
# rmpupdate 8 of 1 at 0 immutable
rmpupdate 8 4k 1 3 0 1
# rmpupdate 9 of 1 at 1 immutable
rmpupdate 9 4k 1 3 1 1
actor 2 fw
# gctx_create 1 context
gctx_create 1 10
launch_start 1
# launch_update 1 8..9 retry 1
launch_update 1 8 1 0 0 0 0 retry 1
launch_update 1 9 1 0 0 0 0 retry 1
launch_update 1 8 3 0 1 0 0
# page_move 1 8 context
page_move 1 8 10
end
'''

# A page with two words, sealed: key, counter, ASID, guest page number, the words by their places, the last word of the ciphertext, and
# the tag, by Python's `cryptography`.
SEALED_PAGE = (bytes(range(32)), 258, 3, 0x1000, {0: 1, 511: 0x0123456789abcdef}, 0xa93df9d02c5d9524, '7b651d9d7a0f7e3bcd0c78bbc8839c07')

# Two events, each as its actor's role, its item and its deed, and whether they commute.
FREE_8, FREE_600 = ('host', 'rmpupdate 8 4k 0 0 0 0'), ('host', 'rmpupdate 600 4k 0 0 0 0')
FREE_512, SMASH = ('host', 'rmpupdate 512 2m 0 0 0 0'), ('host', 'psmash 512')
GUEST = 'cpu 1 vmpl 0 npt 1 flat'
RECLAIM_8, RECLAIM_600, MOVE = ('fw', 'page_reclaim 8'), ('fw', 'page_reclaim 600'), ('fw', 'page_move 1 8 9')
SWAP_OUT, SWAP_IN = ('fw', 'swap_out 1 8 9 10 0'), ('fw', 'swap_in 1 9 11 10 0')
FREE_10 = ('host', 'rmpupdate 10 4k 0 0 0 0')
COMMUTING = [
    (FREE_8 + ('lock 8',), ('host', 'load 0x8000', 'host 8:0 opaque'), True),  # accesses ignore locks
    (FREE_8 + ('commit 8 0x0 4k rc 0',), ('host', 'load 0x8000', 'host 8:0 opaque'), False),
    (FREE_8 + ('commit 8 0x0 4k rc 0',), ('host', 'store 0x8000 1', 'host 8:0 pf 0x80000003'), False),
    (FREE_8 + ('commit 8 0x0 4k rc 0',), ('host', 'load 0x9000', 'host 9:0 load 0x0'), True),
    (FREE_8 + ('commit 8 0x0 4k rc 0',), FREE_8 + ('lock 8 rc 3 by 1',), False),
    (FREE_8 + ('lock 8',), FREE_8 + ('lock 8 rc 3 by 1',), False),
    (FREE_8 + ('lock 8 rc 2',), FREE_8 + ('lock 8 rc 2',), True),
    (FREE_8 + ('lock 8',), FREE_600 + ('lock 600',), True),
    (FREE_8 + ('commit 8 0x0 4k rc 0',), FREE_512 + ('commit 512 0x0 2m rc 0',), True),
    (FREE_512 + ('lock 512',), FREE_600 + ('lock 600 rc 3 by 1',), False),
    (FREE_512 + ('commit 512 0x0 2m rc 0',), ('host', 'store 0x3ff000 1', 'host 1023:0 store'), False),
    (FREE_512 + ('commit 512 0x0 2m rc 0',), ('host', 'store 0x400000 1', 'host 1024:0 store'), True),
    (SMASH + ('lock 512',), FREE_600 + ('lock 600',), False),
    (SMASH + ('commit 512 0x200 2m rc 0',), (GUEST, 'load 0x203008', 'data 0x203:1 515 p load 0x7'), False),
    (('host', 'psmash 513', 'lock 513 rc 1'), FREE_512 + ('commit 512 0x0 2m rc 0',), True),  # no entry was looked at
    (('host', 'rmpupdate 9999 4k 0 0 0 0', 'lock 9999 rc 1'), FREE_8 + ('commit 8 0x0 4k rc 0',), True),
    (FREE_8 + ('commit 8 0x0 4k rc 0',), (GUEST, 'load 0x10', 'npt 8:0 0x0 npf 0x500000004'), False),
    (FREE_8 + ('lock 8',), (GUEST, 'load 0x10', 'npt 8:0 0x0 npf 0x500000004'), True),
    (FREE_8 + ('commit 8 0x0 4k rc 0',), (GUEST, 'load 0x10', 'gpt 0x0:0 8 - vc 0x404'), False),
    (FREE_8 + ('commit 8 0x0 4k rc 0',), (GUEST, 'load 0x10', 'begin'), True),
    (RECLAIM_8 + ('lock 8',), FREE_8 + ('lock 8 rc 3 by 1',), False),
    (RECLAIM_8 + ('lock 8',), ('host', 'load 0x8000', 'host 8:0 opaque'), True),
    (RECLAIM_8 + ('lock 8',), FREE_600 + ('lock 600',), True),
    (RECLAIM_8 + ('lock 8 fw 0x1a',), RECLAIM_8 + ('lock 8 fw 0x1a',), True),
    (RECLAIM_600 + ('lock 600',), SMASH + ('lock 512 rc 3 by 1',), False),  # a page of 2 MB as a whole
    (RECLAIM_8 + ('commit 8 0x0 4k fw 0x0',), (GUEST, 'load 0x10', 'data 0x0:2 8 p npf 0x580000005'), False),
    (MOVE + ('lockg 1',), MOVE + ('lockg 1 fw 0x100 by 1',), False),
    (MOVE + ('lockg 1',), ('fw', 'page_move 2 10 11', 'lockg 2 fw 0x16'), True),
    (MOVE + ('lockg 1',), FREE_8 + ('lock 8',), True),
    (MOVE + ('lock 8',), FREE_8 + ('lock 8 rc 3 by 1',), False),
    (MOVE + ('lock 9 fw 0x1a',), FREE_8 + ('lock 8 rc 3 by 1',), False),  # the refusal releases the source
    (MOVE + ('lock 9 fw 0x1a',), MOVE + ('lockg 1',), False),
    (MOVE + ('commit 9 0x0 4k fw 0x0',), ('host', 'load 0x9000', 'host 9:0 opaque'), False),
    (MOVE + ('commit 9 0x0 4k fw 0x0',), ('host', 'load 0xa000', 'host 10:0 load 0x0'), True),
    (('fw', 'launch_finish 1', 'commitg 1 fw 0x0'), FREE_8 + ('commit 8 0x0 4k rc 0',), True),
    (('fw', 'launch_finish 1', 'commitg 1 fw 0x0'), MOVE + ('lockg 1 fw 0x2',), False),
    (('fw', 'md_init 9999', 'lock 9999 fw 0x9'), FREE_8 + ('commit 8 0x0 4k rc 0',), True),
    (SWAP_OUT + ('lockg 1',), MOVE + ('lockg 1 fw 0x100 by 1',), False),
    (SWAP_OUT + ('lock 10',), ('fw', 'md_out 2 10 11 12 0', 'lock 10 fw 0x100 by 1'), False),
    (SWAP_OUT + ('compute',), ('host', 'store 0x9000 1', 'host 9:0 store'), True),  # the target is read and written by the commit alone
    (SWAP_OUT + ('commit 8 0x0 4k fw 0x0',), ('host', 'store 0x9000 1', 'host 9:0 store'), False),
    (SWAP_OUT + ('commit 8 0x0 4k fw 0x0',), ('fw', 'swap_out 2 13 14 10 1', 'lock 10 fw 0x100 by 1'), False),
    (SWAP_OUT + ('commit 8 0x0 4k fw 0x0',), ('fw', 'swap_out 1 13 14 15 1', 'lockg 1'), False),  # the counter
    (SWAP_IN + ('compute',), ('host', 'store 0x9000 1', 'host 9:0 store'), False),  # the ciphertext is read
    (SWAP_IN + ('compute',), ('host', 'store 0xb000 1', 'host 11:0 store'), True),
    (SWAP_IN + (f'compute fw 0xb found {"0" * 32} kept {"1" * 32}',), FREE_10 + ('lock 10 rc 3 by 1',), False),  # it releases
    (('fw', 'md_root_in 1 9 11', 'commit 11 0x0 4k fw 0x0'), ('fw', 'md_root_out 1 12 13', 'lockg 1 fw 0x100 by 1'), False),
    (('fw', 'md_root_in 1 9 11', 'commit 11 0x0 4k fw 0x0'), ('host', 'load 0xa000', 'host 10:0 load 0x0'), True),
]

# What the examples' items can end with in all interleavings.
UPDATES_EXPLORED = [
    ('race_for_one_entry', {(1, 0): {'rc 0', 'rc 3 by 2'}, (1, 1): {'rc 0', 'rc 3 by 2'},
                            (2, 0): {'rc 0', 'rc 3 by 1', 'rc 3 by 1, then rc 0'}}),
    ('page_taken_under_a_walk', {(1, 0): {'load 0x7', 'npf 0x580000005'}, (2, 0): {'rc 0'}, (2, 1): {'load 0x0'}}),
]

# Scripts whose interleavings are all run, with and without the ones that differ by commuting events alone.
REDUCED = [
    'actor 1 host\nstore 16392 32775\nactor 2 host\nxor 45056 32775\nxor 16384 45063\nxor 16392 36871\n'
    'actor 3 host\nload 16384\nxor 45056 36871\nstore 45056 32775\n',
    'actor 1 host\nstore 45056 1\nactor 2 host\nstore 45056 2\nload 45056\n',
    'actor 1 host\nstore 45056 1\nload 45064\nactor 2 host\nstore 45064 1\nload 45056\n',
    'actor 1 host\ncas 45056 0 1\nskip 1 if bad\nstore 45064 1\nactor 2 host\ncas 45056 0 2\nskip 1 if bad\nstore 45064 2\nload 45064\n',
    'actor 1 cpu 1 vmpl 0 npt 1 flat\nload 0x10\nactor 2 host\nstore 16384 36871\nstore 16384 32775\nxor 12288 1\n',
    'actor 1 cpu 1 vmpl 1 npt 1 flat\nstore 0x10 1\nactor 2 host\nstore 12288 0\nload 16384\nstore 32784 1\n',
    'actor 1 cpu 1 vmpl 0 npt 1 flat\nstore 0x10 1\nactor 2 host\nrmpupdate 8 4k 0 0 0 0\nload 32784\n',
    'actor 1 cpu 1 vmpl 0 npt 1 flat\nstore 0x10 1\nactor 2 host\nrmpupdate 4 4k 1 1 9 0\nload 32784\n',
    'actor 1 host\nrmpupdate 9 4k 1 1 3 0\nload 36864\nactor 2 host\nstore 36864 1\nrmpupdate 9 4k 1 1 4 1 retry 2\n',
    'actor 1 host\nrmpupdate 8 4k 0 0 0 0\nskip 1 if bad\nrmpupdate 0 2m 1 1 512 0\nactor 2 host\nrmpupdate 7 4k 1 1 7 0 retry 1\n',
]
# The same with firmware, and with a second guest that is to be launched.
REDUCED_FIRMWARE = [
    'actor 1 fw\npage_reclaim 8 retry 1\nactor 2 host\nrmpupdate 8 4k 1 1 0 1\nrmpupdate 8 4k 0 0 0 0\n',
    'actor 1 fw\npage_move 1 8 9 retry 1\nactor 2 host\nrmpupdate 8 4k 1 1 0 1\nrmpupdate 9 4k 1 1 5 1\n',
    'actor 1 fw\npage_move 1 8 9\nmd_init 9\nactor 2 fw\npage_move 1 9 8 retry 1\nactor 3 host\nrmpupdate 9 4k 1 0 0 1\n',
    'actor 1 host\nrmpupdate 20 4k 1 0 0 1\nactor 2 fw\ngctx_create 2 20\nlaunch_start 2\nactor 3 cpu 2 vmpl 0 npt 1 flat\nload 0x10\n',
    'actor 1 host\nrmpupdate 8 4k 1 1 0 1\nactor 2 fw\npage_reclaim 8\nactor 3 cpu 1 vmpl 0 npt 4 flat\nload 0x10\n',
]
# The same with pages that are sealed and opened, behind SEALING_HEAD: the scripts, and how many events of the firmware come first,
# behind those of the hypervisor.
SEALING_HEAD = 'actor 1 host\nrmpupdate 10 4k 1 0 0 1\nrmpupdate 8 4k 1 1 0 1\nrmpupdate 9 4k 1 1 0 1\nactor 2 fw\nmd_init 10\n'
REDUCED_SEALING = [
    ('swap_out 1 8 11 10 0\nactor 3 host\nstore 0xb000 1\nload 0xb000\n', 2),
    ('swap_out 1 8 11 10 0\nactor 3 fw\npage_reclaim 10 retry 1\n', 2),
    ('swap_out 1 8 11 10 0\nswap_in 1 11 9 10 0\nactor 3 host\nstore 0xb000 1\n', 8),
    ('swap_out 1 8 11 10 0\nswap_in 1 11 9 10 0\nactor 3 cpu 1 vmpl 0 npt 1 flat\nload 0x10\n', 11),
    ('md_root_out 1 10 12\nactor 3 fw\nswap_out 1 8 11 10 0\n', 2),
]
# The same of a page of 2 MB at frame 512.
REDUCED_LARGE = [
    'actor 1 host\npsmash 512\nrmpupdate 600 4k 0 0 0 0\nactor 2 host\nrmpupdate 512 2m 0 0 0 0 retry 1\nload 0x258000\n',
    'actor 1 cpu 1 vmpl 0 npt 1 flat\nload 0x203008\nactor 2 host\npsmash 512\nrmpupdate 515 4k 0 0 0 0\n',
]
