"""What the first examples, examples/first.c and bindings/rust/examples/first.rs, must print: the same tree, by the reference."""

import pathlib
import sys

sys.path.insert(0, str(pathlib.Path(__file__).resolve().parent.parent / "reference"))

import merkle  # noqa: E402
import published  # noqa: E402
from parameters import validate  # noqa: E402

[instance] = [one for one in published.INSTANCES if one["width"] == 12]
rounds = instance["full_rounds"], instance["partial_rounds"]
_, parameters = validate(12, 4, 2, *rounds, instance["diagonal"], instance["constants"])
leaves = list(range(36))
_, root = merkle.storeless_root(parameters, leaves)
store = [0] * merkle.store_length(parameters)
merkle.build(parameters, leaves, store)
siblings = [0] * merkle.siblings_length(parameters)
merkle.opening(parameters, store, 5, siblings)
verdict, _ = merkle.verify(parameters, root, 5, leaves[20:24], siblings)
print(*root, verdict, sep="\n")
