"""Readers of what `lrshow` writes: data, graphs and pages, and the listings that data stand for."""
