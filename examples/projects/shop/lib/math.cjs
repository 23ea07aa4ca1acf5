with (Math) {
  exports.round = function (number) {
    return round(number);
  };
}
