// Package calendar reads and writes dates and durations in ISO 8601 as whole numbers: dates as days, where 0001-01-01 is 1;
// days and time durations as seconds; years and months durations as months.
package calendar
