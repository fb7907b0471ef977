"""The unit's datagrams in words, in capture files, and in bench runs; tools/wire/README.md tells the commands."""
