"""The version of the package, which is that of include/rafttwine.h. The first number is also the one in the library's file name."""

__version__ = "2.3.0"
