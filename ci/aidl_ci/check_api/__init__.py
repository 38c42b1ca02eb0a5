"""`check-api`: whether a tree may follow its frozen versions, and whether these are as a git revision has them."""
