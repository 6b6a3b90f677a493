function $start(){
  var $counts = [];
  var $i = 0;
  while($i < 1000){
    $counts.push(0);
    $i = $i + 1;
  }
  var $values = [];
  var $x = 1;
  $i = 0;
  while($i < 100000){
    $x = $x * 69069 + 1 >>> 0;
    $values.push($x >>> 8);
    $i = $i + 1;
  }
  var $round = 0;
  while($round < 35){
    $i = 0;
    while($i < $values.length){
      var $k = ($values[$i] + $round) % 1000;
      $counts[$k] = $counts[$k] + 1;
      $i = $i + 1;
    }
    $round = $round + 1;
  }
  var $sum = 0;
  $i = 0;
  while($i < 1000){
    $sum = ($sum * 31 + $counts[$i]) % 1000000;
    $i = $i + 1;
  }
  $write(String($sum));
}
$start();
