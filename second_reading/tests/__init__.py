"""Tests of the second reading: python3 -m unittest discover second_reading"""
