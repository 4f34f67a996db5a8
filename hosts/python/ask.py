from corrivume import Collection, Dictionary

sheet = b"K\t3\nS\tAAACC\t2\t2\t5\nS\tAGAT\t7\t2\nS\tCAGCC\t7\t7\t3\nS\tTACA\t3\t5\n"
given = Collection.read(sheet)
least = given.apply(given.cover().places)
print(len(given.runs()), "runs as given,", len(least.runs()), "at the fewest")
dictionary = Dictionary(least, 2)
for word in ("CAG", "CCC"):
    weight = dictionary.weight(word)
    print(word, "is absent" if weight is None else f"weighs {weight}")
