"""What a job and a reviewer run around `aidl`: each command of `ci/` calls a module of this package. Nothing here is proved. A verdict is always one
that the program printed, and what a command shows is what the program printed too."""
