"""The commands of symarch-keep, a module each, by its name: add, find, symbolicate, name, list, get, fold, retire,
exchange, status, check and repair. Besides them:

- arguments         arguments of a command line that are no paths
- order             what to type if ARCHIVE does not stand first
"""
