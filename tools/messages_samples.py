"""The samples of tools/messages, each with what it has to print, and the documents that tell what it prints."""
import subprocess

from tool_samples import ROOT, run_of, sample_faults, told_faults

TOOL = ROOT / 'tools/messages'
CAPTURE = 'samples/model-lsm.capture'
# A listing with an attempt of each kind, and the first of the pages heard again after one that was not read.
LISTING = '''mode LSM edges 700
1 cut
2 good 000000a80001
3 good 00000009a806
4 gap
5 check
6 good 00000009e806
7 good 342d424dc045
8 good 003731204830
9 good 000000006001
pages 6 bad 3
'''
EMB_40_17 = 'code 6 (device identifier), 2 unformatted: 00000009 | 342d424d:045 00373120:030 | in this project\'s example spelling "EMB-40 17"\n'
NULL = 'code 1 (Null message), 0 unformatted: 00000000\n'
# Base pages alone, and base pages with Remote fault, which are message pages by their D13, ahead of a Next Page.
BASE_PAGES = 'mode HSM edges 186\n1 good 000000850001\n2 good 000000850041\npages 2 bad 0\n'
FAULT = 'mode HSM edges 284\n1 good 00000085a001\n2 good 00000085e101\n3 good 00000000280a\npages 3 bad 0\n'
# The pages of a model, without the one in the middle; and without the last one, so that the one before it says that more follow.
GAP = 'mode LSM edges 200\n1 good 00000009a806\n2 good 00000009e806\n3 good 003731204830\npages 3 bad 0\n'
UNFINISHED = 'mode LSM edges 200\n1 good 00000009e806\n2 good 342d424dc045\npages 2 bad 0\n'
EEE = 'code 10 (EEE), 0 unformatted: 00000000\n'
# Arguments, standard input, exit status, and what is printed; at exit status 2, words of what is said on standard error.
SAMPLES = [
    ('2006', '', 0, 'place 0, code 6 (device identifier), 0 unformatted: 00000000\npages 1 messages 1\n'),
    ('0xFFFFFFFFFFFF 0Xffffffffdfff 2001', '', 0, f'place 0, code 2047, 1 unformatted: ffffffff | ffffffff:7ff\nplace 2, {NULL}pages 3 messages 2\n'),
    ('2005 200a', '', 0, f'place 0, code 5 (OUI tag), 0 unformatted: 00000000\nplace 1, {EEE}pages 2 messages 2\n'),
    ('9a006 342d424d8045 3731200030', '', 0, f'place 0, {EMB_40_17}pages 3 messages 1\n'),
    ('2001 2001', '', 0, f'place 0, {NULL}place 1, {NULL}pages 2 messages 2\n'),
    ('8a006 342d424d8045 3731200030', '', 0, 'place 0, code 6 (device identifier), 2 unformatted: 00000008 | 342d424d:045 00373120:030\npages 3 messages 1\n'),
    ('12006 41', '', 0, 'place 0, code 6 (device identifier), 1 unformatted: 00000001 | 00000000:041 | in this project\'s example spelling "A"\npages 2 messages 1\n'),
    ('12006 7f', '', 0, 'place 0, code 6 (device identifier), 1 unformatted: 00000001 | 00000000:07f\npages 2 messages 1\n'),
    ('12006 1f', '', 0, 'place 0, code 6 (device identifier), 1 unformatted: 00000001 | 00000000:01f\npages 2 messages 1\n'),
    ('12006 141', '', 0, 'place 0, code 6 (device identifier), 1 unformatted: 00000001 | 00000000:141\npages 2 messages 1\n'),
    ('12006 41 0', '', 0, 'place 0, code 6 (device identifier), 2 unformatted: 00000001 | 00000000:041 00000000:000\npages 3 messages 1\n'),
    ('62006 342d424d0045', '', 0, 'place 0, code 6 (device identifier), 1 unformatted: 00000006 | 342d424d:045\npages 2 messages 1\n'),
    ('1002006 ' + '414141410041 ' * 51 + '41', '', 0,
     f'place 0, code 6 (device identifier), 52 unformatted: 00000100 |{" 41414141:041" * 51} 00000000:041\npages 53 messages 1\n'),
    ('12005 41', '', 0, 'place 0, code 5 (OUI tag), 1 unformatted: 00000001 | 00000000:041\npages 2 messages 1\n'),
    ('2006 ' + '0 ' * 63, '', 0, f'place 0, code 6 (device identifier), 63 unformatted: 00000000 |{" 00000000:000" * 63}\npages 64 messages 1\n'),
    ('2006 ' + '0 ' * 64, '', 1, 'refused 25 Length: more than 64 pages\n'),
    ('1000000002006 0', '', 1, 'refused 13 Wide: a page of more than 48 bits\n'),
    ('ffffffffffffffff', '', 1, 'refused 13 Wide: a page of more than 48 bits\n'),
    ('6', '', 1, 'refused 24 Run: the first page is an unformatted one\n'),
    ('2006 20g6', '', 2, "'20g6' is no page"),
    ('2006 10000000000000000', '', 2, "'10000000000000000' is no page"),
    ('2006 --check', '', 2, "'--check' is no page"),
    ('--of', '', 2, "'--of' is no option"),
    ('--check 2006', '', 2, '--check stands alone'),
    ('samples/model-lsm.capture', '', 2, 'a capture goes through tools/list, and a listing that was saved is given by <'),
    ('--from', LISTING, 2, '--from takes the number of an attempt'),
    ('--from 0', LISTING, 2, '--from takes the number of an attempt'),
    ('--from 10', LISTING, 2, 'the listing has no attempt 10'),
    ('', '', 2, 'no listing on standard input'),
    ('', 'mode LSM edges 0\n\ufffd\n', 2, 'line 2 of the input is none of a listing'),
    ('', '0' * 1000, 2, 'line 1 of the input is none of a listing'),
    ('', LISTING + LISTING, 2, 'attempt 1 comes after attempt 9'),
    ('', 'mode LSM edges 90\n1 good 00000009e806\n' * 2, 2, 'attempt 1 comes after attempt 1'),
    ('', 'refused 15\n', 1, 'refused 15\n'),
    ('', 'mode HSM edges 0\npages 0 bad 0\n', 0, 'pages 0 messages 0\n'),
    ('', 'mode HSM edges 0\nrefused 15\n', 2, 'line 2 of the input is none of a listing'),
    ('', LISTING, 0, 'lost: attempts 1 4-5 (a page may be missing)\nleft out: attempt 2, ahead of any message page (taken for base pages)\n'
                     f'sent again: attempt 6 (each page counts once)\nplace 0, {EMB_40_17}place 3, {NULL}pages 4 messages 2\n'),
    ('', BASE_PAGES, 0, 'left out: attempts 1-2, ahead of any message page (taken for base pages)\npages 0 messages 0\n'),
    ('', FAULT, 0, 'missing: at least one page between attempts 1 and 2, which have the same toggle\n'
                   'place 0, code 1 (Null message), 0 unformatted: 00000085\nplace 1, code 257, 0 unformatted: 00000085\n'
                   f'place 2, {EEE}pages 3 messages 3\n'),
    ('', GAP, 0, 'sent again: attempt 2 (each page counts once)\nmissing: at least one page between attempts 1 and 3, which have the same toggle\n'
                 'place 0, code 6 (device identifier), 1 unformatted: 00000009 | 00373120:030\npages 2 messages 1\n'),
    ('', UNFINISHED, 0, 'unfinished: the last page says that more follow (NP is one)\n'
                        'place 0, code 6 (device identifier), 1 unformatted: 00000009 | 342d424d:045\npages 2 messages 1\n'),
    ('--from 3', FAULT, 0, f'place 0, {EEE}pages 1 messages 1\n'),
    ('--from 9', LISTING, 0, f'place 0, {NULL}pages 1 messages 1\n'),
    ('--from 8', LISTING, 1, 'refused 24 Run: the first page is an unformatted one\n'),
    ('--from 5', LISTING, 0, f'lost: attempt 5 (a page may be missing)\nplace 0, {EMB_40_17}place 3, {NULL}pages 4 messages 2\n'),
]


def checks():
    """For each sample, and each document that tells what is printed, what is wrong with it, or nothing."""
    yield from (sample_faults(TOOL, *sample) for sample in SAMPLES)
    listing = subprocess.run([ROOT / 'tools/list', ROOT / CAPTURE], stdout=subprocess.PIPE).stdout
    text = run_of(TOOL, '', listing).stdout
    for document in 'README.md', 'samples/README.md':
        yield told_faults(document, f'tools/list {CAPTURE} | tools/messages', text)
