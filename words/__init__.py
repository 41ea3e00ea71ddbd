"""The words of ./tehuamozo, what they stand on, and their tests."""
