"""console.py script FIRST SPACE: the lines of standard input as a script of words for hart 0, four bytes each, the first in the lowest; a line begins SPACE steps
behind the last one, the first at FIRST, and words of 0 behind each fetch up to 4,096 bytes of its answer. console.py text: what the outputs of a machine's text
(standard input) print. console.py steps FIRST SPACE: how many steps the script of these lines wants."""
import struct
import sys

FETCHES = 1024
APART = 400


def words_of(line):
    text = line.rstrip('\n').encode() + b'\n'
    text += b'\0' * (-len(text) % 4)
    return list(struct.unpack(f'<{len(text) // 4}I', text))


def main():
    what = sys.argv[1]
    if what == 'text':
        words = [line.split()[5] for line in sys.stdin if line.startswith('out ')]
        sys.stdout.buffer.write(b''.join(struct.pack('<I', int(word, 16)) for word in words).replace(b'\0', b''))
        return
    first, space = int(sys.argv[2]), int(sys.argv[3])
    at = first
    for line in sys.stdin:
        words = words_of(line)
        if what == 'script':
            for number, word in enumerate(words):
                print(f'0 {at + number * APART} word {word:08x}')
            for number in range(FETCHES):
                print(f'0 {at + space - (FETCHES - number) * APART} word 00000000')
        at += space
    if what == 'steps':
        print(at)


main()
