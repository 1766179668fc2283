"""Numbers in words: what tools/messages and tools/parity share."""


def in_ranges(numbers):
    """Rising numbers in words, as 1 4-7 9."""
    ranges = []
    for number in numbers:
        if ranges and number == ranges[-1][1] + 1:
            ranges[-1][1] = number
        else:
            ranges.append([number, number])
    return ' '.join(str(first) if first == last else f'{first}-{last}' for first, last in ranges)
