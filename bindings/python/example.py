"""Groups four names in two pairs, 0.875 within a pair and 0.125 across, by the seed 42; then averages and the check of a book in millionths."""

import onc

book = [
    [1.0, 0.875, 0.125, 0.125],
    [0.875, 1.0, 0.125, 0.125],
    [0.125, 0.125, 1.0, 0.875],
    [0.125, 0.125, 0.875, 1.0],
]
grouping = onc.group(book, seed=42, names=["A", "B", "C", "D"])
print("names {} groups {} draws {}".format(len(grouping.order), len(grouping.groups), grouping.draws_read))
for number, members in enumerate(grouping.groups):
    print("group {}: {}".format(number, ", ".join("{} {:.3f}".format(name, grouping.scores[name]) for name in members)))

try:
    onc.group(book, repeat=0)
except onc.Refusal as refusal:
    print(refusal)

values = [2, 4, 4, 4, 5, 5, 7, 9]
print("mean {} variance {} standard deviation {}".format(onc.mean(values), onc.variance(values), onc.std_dev(values)))

try:
    onc.check_book([[1000000, 250000], [250001, 1000000]])
except onc.Improper as improper:
    print(improper)
