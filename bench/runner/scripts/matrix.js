function $made($n, $x){
  var $rows = [];
  var $i = 0;
  while($i < $n){
    var $row = [];
    var $j = 0;
    while($j < $n){
      $row.push(($i * $x + $j) % 12 + 1);
      $j = $j + 1;
    }
    $rows.push($row);
    $i = $i + 1;
  }
  return $rows;
}
function $product($a, $b, $n){
  var $c = $made($n, 0);
  var $i = 0;
  while($i < $n){
    var $j = 0;
    while($j < $n){
      var $sum = 0;
      var $k = 0;
      while($k < $n){
        $sum = $sum + $a[$i][$k] * $b[$k][$j];
        $k = $k + 1;
      }
      $c[$i][$j] = $sum % 12;
      $j = $j + 1;
    }
    $i = $i + 1;
  }
  return $c;
}
function $start(){
  var $n = 160;
  var $a = $made($n, 3);
  var $b = $made($n, 7);
  $a = $product($a, $b, $n);
  var $sum = 0;
  var $i = 0;
  while($i < $n){
    $sum = $sum + $a[$i][$n - 1 - $i];
    $i = $i + 1;
  }
  $write(String($sum));
}
$start();
