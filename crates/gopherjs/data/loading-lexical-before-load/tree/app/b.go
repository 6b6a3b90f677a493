package main
#